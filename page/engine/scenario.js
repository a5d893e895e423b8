// The edits that stand, as a value that is never changed: how it looks as lines of a session, what lines lead from one to
// another, and what is left of it without one of its edits. Whether an edit may be made, the program says.
import { hexByte, hexWord, hexadecimal, many, numberOf } from '../common/numbers.js';
import { REGISTERS } from '../facts.js';
import { HALF, NOTHING, WORD } from '../riscv/isa.js';

const KINDS = ['defined', 'undefined', 'noaccess'];
export const OPTIONS = { redzone: '16', queue: '20000000', callers: '12', show: 'definite,possible' };

// A line that is no edit, in words; with the form that it may have been meant to have, undefined where no line begins so.
export class NoEdit extends Error {
  form;

  constructor(line, form) {
    super(line);
    this.form = form;
  }
}

export class Scenario {
  base;
  cut;
  appended;
  changes;
  patches;
  marks;
  options;
  added;
  switched;

  constructor(base, { cut = 0, appended = [], changes = new Map(), patches = new Map(), marks = [], options = new Map(), added = [],
    switched = new Map() } = {}) {
    this.base = base;
    this.cut = cut;
    this.appended = appended;
    this.changes = changes;
    this.patches = patches;
    this.marks = marks;
    this.options = options;
    this.added = added;
    this.switched = switched;
  }

  with(parts) {
    return new Scenario(this.base, { ...this, ...parts });
  }

  get kept() { return this.base.length - this.cut; }
  get length() { return this.kept + this.appended.length; }

  byte(at) {
    return at < this.kept ? this.changes.get(at) ?? this.base[at] : this.appended[at - this.kept];
  }

  isEdited(at) {
    return at >= this.kept || this.changes.has(at);
  }

  get input() {
    const bytes = new Uint8Array(this.length);
    bytes.set(this.base.subarray(0, this.kept));
    bytes.set(this.appended, this.kept);
    for (const [at, value] of this.changes) bytes[at] = value;
    return bytes;
  }

  // ---- edits

  withByte(at, value) {
    if (at >= this.kept && at < this.length) return this.with({ appended: this.appended.with(at - this.kept, value) });
    return this.with({ changes: changed(this.changes, at, value === this.base[at] ? null : value) });
  }

  // Bytes from an offset on.
  withBytes(at, values) { return values.reduce((it, value, i) => it.withByte(at + i, value), this); }

  // These bytes as the whole input.
  withInput(values) {
    const { base } = this, kept = values.slice(0, base.length);
    const changes = new Map([...kept.entries()].filter(([at, value]) => value !== base[at]));
    return this.with({ changes, cut: base.length - kept.length, appended: values.slice(base.length) });
  }

  withAppended(value) { return this.with({ appended: [...this.appended, value] }); }

  withCut() {
    if (this.appended.length) return this.with({ appended: this.appended.slice(0, -1) });
    return this.with({ cut: this.cut + 1, changes: changed(this.changes, this.kept - 1, null) });
  }

  // A patch of this length in bytes, over those that are there: of one that it covers in part, the other half stays.
  withPatch(at, value, length = WORD) {
    if (this.patches.get(at)?.length === length) return this.with({ patches: changed(this.patches, at, { value, length }) });
    const patches = new Map(this.patches);
    for (const [begin, it] of this.patches) {
      if (begin >= at + length || at >= begin + it.length) continue;
      patches.delete(begin);
      if (begin < at) patches.set(begin, { value: it.value & 0xffff, length: HALF });
      if (begin + it.length > at + length) patches.set(begin + HALF, { value: it.value >>> 16, length: HALF });
    }
    return this.with({ patches: changed(patches, at, { value, length }) });
  }

  withoutPatch(at) { return this.with({ patches: changed(this.patches, at, null) }); }
  withoutPatches(at, length) { return this.patchesOf(at, length).reduce((it, begin) => it.withoutPatch(begin), this); }

  // Where patches begin that have one of some bytes.
  patchesOf(at, length) {
    return [...this.patches].filter(([begin, it]) => begin < at + length && at < begin + it.length).map(([begin]) => begin);
  }

  // The word or the half at an address, null where there is none. `loaded` tells what a program's file has there.
  valueAt(at, length, loaded) {
    const patch = this.patches.get(at);
    if (patch?.length === length) return patch.value;
    if (length === HALF) return this.patchedHalf(at) ?? loaded(at, HALF);
    if (!this.patchesOf(at, length).length) return loaded(at, length);
    const halves = [at, at + HALF].map((it) => this.valueAt(it, HALF, loaded));
    return halves.includes(null) ? null : (halves[1] << 16 | halves[0]) >>> 0;
  }

  // What a patch writes to two bytes, null where none does.
  patchedHalf(at) {
    const whole = this.patches.get(at);
    if (whole) return whole.value & 0xffff;
    const before = this.patches.get(at - HALF);
    return before?.length === WORD ? before.value >>> 16 : null;
  }

  // A mark of a range, or what is altered at a step: its line, and what it is called.
  withMark(mark) { return this.with({ marks: [...this.marks, mark] }); }
  withoutMark(index) { return this.with({ marks: this.marks.filter((_, it) => it !== index) }); }

  withOption(name, value) {
    return this.with({ options: changed(this.options, name, value === OPTIONS[name] ? null : value) });
  }

  // The same edits over another input, over other suppressions where these aren't the same, for an instruction set whose instructions
  // are at multiples of a unit, and where other memory is loaded: those that fit, and how many don't.
  over(base, areSame, unit = HALF, loaded = (_at, _length) => 0) {
    const changes = new Map([...this.changes].filter(([at, value]) => at < base.length - this.cut && value !== base[at]));
    const beyond = [...this.changes.keys()].filter((at) => at >= base.length - this.cut).length;
    const cut = Math.min(this.cut, base.length), switched = areSame ? this.switched : new Map();
    const patches = new Map([...this.patches].filter(([at, it]) => at % unit === 0 && it.length >= unit
      && loaded(at, it.length) !== null));
    const left = beyond + this.cut - cut + this.switched.size - switched.size + this.patches.size - patches.size;
    return { scenario: new Scenario(base, { ...this, changes, cut, switched, patches }), left };
  }

  withSuppression(text) { return this.with({ added: [...this.added, text] }); }

  // ---- lines

  get lines() {
    return [
      ...[...this.options].map(([name, value]) => `option ${name} ${value}`),
      ...this.added.map((it) => `supp add ${it}`),
      ...[...this.switched].map(([index, how]) => `supp ${how} ${index}`),
      ...[...this.patches].map(([at, it]) => patchLine(at, it.value, it.length)),
      ...this.marks.map(markLine),
      ...Array(this.cut).fill('input cut'),
      ...this.appended.map((value) => `input append ${value}`),
      ...[...this.changes].sort(([a], [b]) => a - b).map(([at, value]) => inputLine(at, value)),
    ];
  }

  // The scenario after a line that edits.
  after(line) {
    const [first, ...words] = line.split(' ');
    const found = AFTER.get(`${first} ${words[0]}`)?.(this, words.slice(1)) ?? AFTER.get(first)?.(this, words);
    if (!found) throw new NoEdit(line, FORMS.get(`${first} ${words[0]}`) ?? FORMS.get(first));
    return found;
  }
}

function changed(map, key, value) {
  const copy = new Map(map);
  if (value === null) copy.delete(key);
  else copy.set(key, value);
  return copy;
}

const inputLine = (at, value) => `input ${at} ${value}`;
const patchLine = (at, value, length = WORD) => `patch${length === HALF ? '16' : ''} ${hexWord(at)} ${hexadecimal(value, 2 * length)}`;
const markLine = (it) => it.line ?? `mark ${it.step} ${hexWord(it.at)} ${it.length} ${it.kind}`;

// The line that makes an edit of a sweep; `length` is that of an instruction.
export const editLine = (kind, at, value, length) => (kind === 'bytes' ? inputLine(at, value) : patchLine(at, value, length));

// The bytes of hexadecimal digits, null where a text is something else.
const bytesIn = (text) => (/^(?:[0-9a-fA-F]{2})*$/.test(text) ? (text.match(/../g) ?? []).map((it) => parseInt(it, 16)) : null);

// The forms of lines, by their first words.
const FORMS = new Map(Object.entries({
  'goto': 'goto STEP', 'input': 'input OFFSET BYTE', 'input append': 'input append BYTE', 'input cut': 'input cut',
  'bytes': 'bytes OFFSET HEX, of bytes that are there', 'bytes is': 'bytes is HEX', 'patch': 'patch ADDR WORD',
  'patch16': 'patch16 ADDR HALF',
  'mark': 'mark STEP ADDR LEN defined, undefined or noaccess', 'unmark': 'unmark INDEX, of a mark that is there',
  'option': 'option redzone, queue, callers or show, and a value', 'supp': 'supp add KIND FRAME.., supp on INDEX or supp off INDEX',
  'set': 'set STEP REGISTER VALUE [UNDEFINED-BITS]', 'flip': 'flip STEP REGISTER MASK, or flip STEP ADDR MASK',
  'write': 'write STEP ADDR LEN VALUE', 'skip': 'skip STEP',
}));

// What a line does to a scenario, by its first words; null where the others aren't what it takes.
const AFTER = new Map();
const withNumbers = (count, does) => (it, words) => {
  const numbers = words.map(numberOf);
  return numbers.length === count && !numbers.includes(null) ? does(it, ...numbers) : null;
};
const switched = (how) => withNumbers(1, (it, index) => it.with({ switched: changed(it.switched, index, how) }));
AFTER.set('input', withNumbers(2, (it, at, value) => it.withByte(at, value)));
AFTER.set('bytes', (it, words) => {
  const at = numberOf(words[0] ?? ''), values = bytesIn(words[1] ?? '');
  return words.length === 2 && at !== null && values?.length && at + values.length <= it.length ? it.withBytes(at, values) : null;
});
AFTER.set('bytes is', (it, words) => {
  const values = words.length < 2 ? bytesIn(words[0] ?? '') : null;
  return values && it.withInput(values);
});
AFTER.set('input append', withNumbers(1, (it, value) => it.withAppended(value)));
AFTER.set('input cut', withNumbers(0, (it) => (it.length ? it.withCut() : null)));
AFTER.set('patch', withNumbers(2, (it, at, word) => it.withPatch(at, word)));
AFTER.set('patch16', withNumbers(2, (it, at, half) => (half < 1 << 16 ? it.withPatch(at, half, HALF) : null)));
AFTER.set('mark', (it, words) => {
  const [step, at, length] = words.slice(0, 3).map(numberOf), [, , , kind] = words;
  const isMark = words.length === 4 && KINDS.includes(kind) && ![step, at, length].includes(null);
  return isMark ? it.withMark({ step, at, length, kind }) : null;
});
for (const word of ['set', 'write', 'flip', 'skip']) {
  AFTER.set(word, (it, words) => {
    const alteration = alterationOf(word, words);
    return alteration && it.withMark(alteration);
  });
}
AFTER.set('unmark', withNumbers(1, (it, index) => (index < it.marks.length ? it.withoutMark(index) : null)));
AFTER.set('option', (it, words) => (words.length === 2 && Object.hasOwn(OPTIONS, words[0]) ? it.withOption(...words) : null));
AFTER.set('supp add', (it, words) => (words.length ? it.withSuppression(words.join(' ')) : null));
AFTER.set('supp on', switched('on'));
AFTER.set('supp off', switched('off'));

// ---- what is altered at a step

export const setLine = (step, register, value, undef) => `set ${step} ${register} ${hexWord(value)}${undef ? ` ${hexWord(undef)}` : ''}`;
export const flipLine = (step, place, mask) => `flip ${step} ${place} ${hexWord(mask)}`;
export const writeLine = (step, at, value) => `write ${step} ${hexWord(at)} 1 ${hexByte(value)}`;
export const skipLine = (step) => `skip ${step}`;

// A register's other name, or a place in memory.
const placeTold = (place) => (place === 'pc' ? 'pc' : REGISTER.test(place) ? REGISTERS[Number(place.slice(1))] : `the bytes at ${place}`);
const REGISTER = /^x(?:[1-9]|[12][0-9]|3[01])$/;
const isRegister = (it) => it === 'pc' || REGISTER.test(it ?? '');
const areNumbers = (words) => words.every((it) => numberOf(it) !== null);
// Of each line its fields' forms, and what it does in words.
const ALTERS = {
  set: [([step, place, ...numbers]) => isRegister(place) && areNumbers([step, ...numbers]) && numbers.length > 0
    && numbers.length < (place === 'pc' ? 2 : 3),
  ([, place, value, undef]) => `${placeTold(place)} = ${value}${undef ? `, undefined ${undef}` : ''}`],
  flip: [(words) => words.length === 3 && areNumbers(words.filter((it, at) => at !== 1 || !isRegister(it))),
    ([, place, mask]) => `bits ${mask} of ${placeTold(place)} turned`],
  write: [(words) => words.length === 4 && areNumbers(words),
    ([, at, length, value]) => `${many(numberOf(length), 'byte')} at ${at} = ${value}`],
  skip: [(words) => words.length === 1 && areNumbers(words), () => 'an instruction left out'],
};

// A register's number for the program in the place of its other name.
const numbered = (place) => (REGISTERS.indexOf(place) > 0 ? `x${REGISTERS.indexOf(place)}` : place === 'fp' ? 'x8' : place);

// What a line alters, null where it isn't of its form.
function alterationOf(word, given) {
  const [is, told] = ALTERS[word], words = word === 'write' ? given : given.map((it, at) => (at === 1 ? numbered(it) : it));
  return is(words) ? { line: [word, ...words].join(' '), label: `step ${numberOf(words[0])}: ${told(words)}` } : null;
}

// ---- from one scenario to another

function optionLines(a, b) {
  const names = Object.keys(OPTIONS).filter((it) => a.options.get(it) !== b.options.get(it));
  return names.map((it) => `option ${it} ${b.options.get(it) ?? OPTIONS[it]}`);
}

function suppressionLines(a, b) {
  if (a.added.some((it, index) => b.added[index] !== it)) return null;
  const indexes = new Set([...a.switched.keys(), ...b.switched.keys()]);
  return [
    ...b.added.slice(a.added.length).map((it) => `supp add ${it}`),
    ...[...indexes].filter((it) => a.switched.get(it) !== b.switched.get(it))
      .map((it) => `supp ${b.switched.get(it) ?? 'on'} ${it}`),
  ];
}

function patchLines(a, b, loaded) {
  const lines = [];
  const add = (at, value, length) => lines.push(value === null ? null : patchLine(at, value, length));
  for (const [at, { length }] of a.patches) {
    const left = Array.from({ length: length / HALF }, (_, i) => at + HALF * i).filter((it) => b.patchedHalf(it) === null);
    if (left.length === length / HALF) add(at, loaded(at, length), length);
    else for (const it of left) add(it, loaded(it, HALF), HALF);
  }
  for (const [at, { value, length }] of b.patches) {
    const had = a.patches.get(at);
    if (had?.value !== value || had.length !== length) add(at, value, length);
  }
  return lines.includes(null) ? null : lines;
}

function markLines(a, b) {
  const wanted = b.marks.map(markLine), lines = [];
  const left = a.marks.map(markLine);
  for (let index = left.length - 1; index >= 0; index--) {
    if (left[index] === wanted[index] && left.slice(0, index).every((it, before) => it === wanted[before])) break;
    left.splice(index, 1);
    lines.push(`unmark ${index}`);
  }
  return [...lines, ...wanted.slice(left.length)];
}

function inputLines(a, b) {
  const kept = a.cut === b.cut ? commonLength(a.appended, b.appended) : 0;
  const lines = Array(a.appended.length - kept + Math.max(0, b.cut - a.cut)).fill('input cut');
  for (let at = a.kept; at < b.kept; at++) lines.push(`input append ${b.byte(at)}`);
  lines.push(...b.appended.slice(kept).map((it) => `input append ${it}`));
  for (const at of new Set([...a.changes.keys(), ...b.changes.keys()])) {
    if (at < Math.min(a.kept, b.kept) && a.byte(at) !== b.byte(at)) lines.push(inputLine(at, b.byte(at)));
  }
  const beyond = [...b.changes.keys()].filter((at) => at >= b.kept);  // no such byte: the program says so
  return [...lines, ...beyond.map((at) => inputLine(at, b.changes.get(at)))];
}

function commonLength(a, b) {
  let length = 0;
  while (length < a.length && length < b.length && a[length] === b[length]) length++;
  return length;
}

// The lines that lead a session from one scenario to another, null where it takes a new session. `loaded` tells the word that a
// program's file has at an address, null where it has none.
export function linesBetween(a, b, loaded) {
  if (a.base !== b.base) return null;
  const parts = [optionLines(a, b), suppressionLines(a, b), patchLines(a, b, loaded), markLines(a, b), inputLines(a, b)];
  return parts.includes(null) ? null : parts.flat();
}

// ---- chips

// The edits one by one: what each is called, its lines, and the scenario without it.
export function editsOf(it) {
  const edits = [];
  const add = (label, lines, without) => edits.push({ label, lines, without });
  for (const [name, value] of it.options) {
    add(`${name} ${value}`, [`option ${name} ${value}`], it.withOption(name, OPTIONS[name]));
  }
  it.added.forEach((text, index) => {
    // The numbers of those behind it change, so none is switched by its number any more.
    add(`suppressed: ${text}`, [`supp add ${text}`], it.with({ added: it.added.toSpliced(index, 1), switched: new Map() }));
  });
  for (const [index, how] of it.switched) {
    add(`suppression ${index} ${how}`, [`supp ${how} ${index}`], it.with({ switched: changed(it.switched, index, null) }));
  }
  for (const [at, { value, length }] of it.patches) {
    const told = value === NOTHING[length] ? 'skipped' : hexadecimal(value, 2 * length);
    add(`${hexWord(at)}: ${told}`, [patchLine(at, value, length)], it.withoutPatch(at));
  }
  it.marks.forEach((mark, index) => {
    const label = mark.label ?? `${mark.length} at ${hexWord(mark.at)} ${mark.kind} from step ${mark.step}`;
    add(label, [markLine(mark)], it.withoutMark(index));
  });
  if (it.cut) add(`${it.cut} cut off`, Array(it.cut).fill('input cut'), it.with({ cut: 0, appended: it.appended }));
  const lines = it.appended.map((value) => `input append ${value}`);
  if (lines.length) add(`${lines.length} appended`, lines, it.with({ appended: [] }));
  const changes = [...it.changes].sort(([a], [b]) => a - b);
  for (const [at, value] of changes) {
    const label = `byte ${at}: ${hexByte(it.base[at] ?? 0)} → ${hexByte(value)}`;
    add(label, [inputLine(at, value)], it.with({ changes: changed(it.changes, at, null) }));
  }
  return edits;
}
