// What the program writes in all of its run, by lines: each part leads to the step that writes it, and a line that the unedited run writes
// otherwise is marked.
import { $, element, say } from '../common/dom.js';
import { grouped, hexadecimal, many } from '../common/numbers.js';

export const MOST_BYTES = 4096;  // that are shown, as many as one look has
const MOST_LINES = 300;
const NEWLINE = 10, BACKSLASH = 92;

function letterOf(byte) {
  if (byte === BACKSLASH) return '\\\\';
  return byte > 31 && byte < 127 ? String.fromCharCode(byte) : `\\${hexadecimal(byte, 2).slice(1)}`;
}

// Bytes as lines, each in parts: a text, and the step that writes it, null where that isn't known. `writes` are steps with the number of
// bytes that each writes.
export function linesOf(bytes, writes) {
  const lines = [[]];
  let left = 0, at = -1, text = '';
  const close = () => {
    if (text) lines.at(-1).push({ text, step: writes?.[at]?.step ?? null });
    text = '';
  };
  for (const byte of bytes) {
    while (writes && left === 0 && at + 1 < writes.length) {
      close();
      at += 1;
      left = writes[at].count;
    }
    left -= 1;
    if (byte === NEWLINE) {
      close();
      lines.push([]);
    } else {
      text += letterOf(byte);
    }
  }
  close();
  if (!lines.at(-1).length) lines.pop();
  return lines;
}

const textOf = (parts) => parts.map((it) => it.text).join('');

export class Output {
  go;
  shown = null;

  // `go` goes to a step.
  constructor({ go }) {
    this.go = go;
  }

  clear() {
    this.shown = null;
    $('output-lines').replaceChildren();
    say('output-told', '');
  }

  // Shows the first bytes of an output of `length` bytes, beside those of the unedited run, `before`, null where these are the same run.
  // `step` is the one that is looked at: what is written later is greyed.
  show({ bytes, length, before, writes, step }) {
    const key = JSON.stringify([bytes, length, before, writes, step]);
    if (key === this.shown) return;
    this.shown = key;
    const now = linesOf(bytes, writes), was = before && linesOf(before, null).map(textOf);
    const rows = now.slice(0, MOST_LINES).map((parts, i) => this.line(parts, was && was[i] !== textOf(parts) ? was[i] ?? '' : null, step));
    const gone = (was ?? []).slice(now.length, MOST_LINES).map((text) => element('li', { className: 'gone' },
      element('del', {}, text || ' '), element('span', { className: 'quiet' }, ' only unedited')));
    $('output-lines').replaceChildren(...rows, ...gone);
    const rest = length > bytes.length ? `, the first ${grouped(bytes.length)} here` : '';
    const isOther = rows.some((it) => it.className === 'differs') || gone.length > 0;
    const beside = was ? isOther ? ', other than unedited' : ', as unedited' : '';
    say('output-told', `${length ? many(length, 'byte') : 'none'}${rest}${beside}`);
  }

  // A line, and what it was in the unedited run, null where it is the same.
  line(parts, was, step) {
    const shown = parts.map((it) => this.part(it, step));
    const other = was === null ? [] : [element('span', { className: 'quiet' }, was ? ` unedited: ${was}` : ' only now')];
    return element('li', { className: was === null ? '' : 'differs' }, ...(shown.length ? shown : [' ']), ...other);
  }

  part({ text, step }, here) {
    if (step === null) return text;
    const className = here !== null && step >= here ? 'later' : '';
    return element('button', { className, title: `step ${grouped(step)} writes it`, onclick: () => this.go(step) }, text);
  }
}
