// A run of the proved program: its command line, its files, its streams, and nothing else of the world.
import { limitWords, targetWords } from './targets.js';

const encoder = new TextEncoder();
const decoder = new TextDecoder();
const FIRST_FILE = 3;

// Whether the program can wait in a read until the page has the next line.
export const canWait = typeof WebAssembly.Suspending === 'function' && typeof WebAssembly.promising === 'function';

export class Run {
  words;
  files;
  ask;
  tell;
  opened = [];
  given = null;
  said = '';
  /** @type {{ memory: WebAssembly.Memory, allow: (bytes: number) => void, run: () => number }} */ exports;
  /** @type {() => any} */ start;

  // `ask` gives the next bytes of standard input, null at its end, or a promise of either where `waits`; `tell` takes what is
  // written to standard output, and must copy what it keeps.
  constructor(module, { words, files, limit, ask, tell, waits = false }) {
    this.words = words;
    this.files = files;
    this.ask = ask;
    this.tell = tell;
    const read = (file, at, most) => this.read(file, at, most);
    const page = {
      read: waits ? /** @type {any} */ (new WebAssembly.Suspending(read)) : read,
      write: (file, at, length) => this.write(file, at, length),
      open: (path) => this.open(path),
      word: (index, at, most) => this.word(index, at, most),
    };
    this.exports = /** @type {any} */ (new WebAssembly.Instance(module, { page })).exports;
    this.exports.allow(limit);
    this.start = waits ? WebAssembly.promising(this.exports.run) : this.exports.run;
  }

  bytes(at, length) {
    return new Uint8Array(this.exports.memory.buffer, at, length);
  }

  read(file, at, most) {
    const from = file >= FIRST_FILE ? this.opened[file - FIRST_FILE] : this.given;
    if (from && (file >= FIRST_FILE || from.at < from.bytes.length)) return this.hand(from, at, most);
    const next = this.ask();
    if (next instanceof Promise) return next.then((bytes) => this.take(bytes, at, most));
    return this.take(next, at, most);
  }

  take(bytes, at, most) {
    this.given = bytes && { bytes, at: 0 };
    return bytes ? this.hand(this.given, at, most) : 0;
  }

  hand(from, at, most) {
    const part = from.bytes.subarray(from.at, from.at + most);
    this.bytes(at, part.length).set(part);
    from.at += part.length;
    return part.length;
  }

  write(file, at, length) {
    const bytes = this.bytes(at, length);
    if (file === 2) this.said += decoder.decode(bytes);
    else this.tell(bytes);
    return length;
  }

  open(path) {
    const memory = new Uint8Array(this.exports.memory.buffer, path);
    const name = decoder.decode(memory.slice(0, memory.indexOf(0)));
    if (!Object.hasOwn(this.files, name)) return -1;
    this.opened.push({ bytes: this.files[name], at: 0 });
    return FIRST_FILE + this.opened.length - 1;
  }

  word(index, at, most) {
    if (index < 0) return this.words.length;
    if (index >= this.words.length) return -1;
    const word = encoder.encode(this.words[index]);
    if (word.length > most) return -2;
    this.bytes(at, word.length).set(word);
    return word.length;
  }

  get memory() {
    return this.exports.memory.buffer.byteLength;
  }
}

// The words of a session, which has a last step.
export const sessionWords = (files, target) => [...limitWords(target), ...fileWords(files, target)];

// The words that name the files there are, and a target that isn't the usual one.
export function fileWords(files, target) {
  return [...targetWords(target), 'program', ...['input', 'supp'].flatMap((name) => (files[name] ? [`--${name}`, name] : []))];
}
