// Numbers as text: those of lines, and those that people read.
const NUMBER = /^(?:[0-9]{1,10}|0[xX][0-9a-fA-F]{1,8})$/;

// The number that a text is in a session's line, null where it is none.
export const numberOf = (text) => (NUMBER.test(text) ? Number(text) : null);

export const hexadecimal = (value, digits = 1) => `0x${value.toString(16).padStart(digits, '0')}`;
export const hexByte = (value) => hexadecimal(value, 2);
export const hexWord = (value) => hexadecimal(value, 8);

export const letter = (value) => (value > 31 && value < 127 ? String.fromCharCode(value) : '·');
export const grouped = (number) => number.toLocaleString('en-US');
export const many = (count, one, more = `${one}s`) => `${grouped(count)} ${count === 1 ? one : more}`;

// Names in a sentence, the last two with a word between them.
export const listed = (names, word) => [names.slice(0, -1).join(', '), ...names.slice(-1)].filter(Boolean).join(` ${word} `);

export function milliseconds(time) {
  return time < 10 ? `${time.toFixed(1)} ms` : time < 1000 ? `${Math.round(time)} ms` : `${(time / 1000).toFixed(1)} s`;
}

export function size(bytes) {
  return bytes < 1 << 20 ? many(bytes, 'byte') : `${(bytes / (1 << 20)).toFixed(1)} MiB`;
}
