// The files that are given: from the disk, dropped, from an example, or named by a link.
import { $, element } from '../common/dom.js';
import { listed, many, size } from '../common/numbers.js';
import { USUAL_TARGET, givenOf, targetBy, targetOf } from '../engine/targets.js';
import { EXAMPLES, SOURCES } from '../examples.js';
import { TargetPanel } from '../panels/target-panel.js';
import { USUAL } from '../riscv/isa.js';
import { filesIn, givenBy } from './dropped.js';
import { Kept } from './kept.js';
import { packed, unpacked } from './links.js';

const ELF = [0x7f, 0x45, 0x4c, 0x46];
const ROLES = ['program', 'input', 'supp'];
const SUM_DIGITS = 16;
const LARGEST = 1 << 26;  // bytes, far more than the program takes of any file
const FIRST = { name: 'station', lines: ['input 1 8'] };  // what a page begins with: an example with an edit

const bytesOf = (text) => Uint8Array.from(atob(text), (it) => it.charCodeAt(0));
const isElf = (bytes) => ELF.every((it, index) => bytes[index] === it);

function isSuppressions(name, bytes) {
  return name.endsWith('.supp') || (bytes[0] === 0x7b && new TextDecoder().decode(bytes.slice(0, 4096)).includes('Memcheck:'));
}

async function sumOf(bytes) {
  if (!crypto.subtle) return '';
  const sum = new Uint8Array(await crypto.subtle.digest('SHA-256', bytes));
  return [...sum].map((it) => it.toString(16).padStart(2, '0')).join('').slice(0, SUM_DIGITS);
}

const FIRST_EXAMPLE = EXAMPLES.find((it) => it.name === FIRST.name);

/**
 * The files of an example.
 * @param {any} example
 */
function filesOf({ program, programBytes, input, inputBytes }) {
  const files = { program: { name: program, bytes: bytesOf(programBytes) } };
  return inputBytes === undefined ? files : { ...files, input: { name: input, bytes: bytesOf(inputBytes) } };
}

/** @param {any} example */
const targetFor = ({ isa }) => targetOf({ isa }).target;

class TooLarge extends Error {}

const hasFiles = (event) => event.dataTransfer?.types.includes('Files');

export class Opening {
  open;
  refuse;
  source;
  files = {};
  example = null;
  target = USUAL_TARGET;
  wanted = null;
  /** @type {?Object} */ waiting = null;
  kept = new Kept('replaycheck');
  tabs;
  isForgotten = false;
  /** @type {TargetPanel} */ targetPanel;

  // `open` takes files by their roles, each with a name and bytes, and gives whether they were opened; `refuse` a sentence; `source` has
  // the source files, `tabs` the tabs.
  constructor({ open, refuse, source, tabs }) {
    this.open = open;
    this.refuse = refuse;
    this.source = source;
    this.tabs = tabs;
    for (const role of ROLES) {
      $(`open-${role}`).addEventListener('change', (event) => this.chosen(role, event.target));
    }
    this.targetPanel = new TargetPanel({ choose: (change) => this.again(change) });
    $('examples').append(...EXAMPLES.map(({ name, about }) => element('button', { title: about, onclick: () => this.choose(name) }, name)));
    for (const id of ['forget', 'start-over']) $(id).addEventListener('click', () => this.forget(id === 'start-over'));
    const over = (is) => document.body.classList.toggle('over', is);
    addEventListener('dragover', (event) => { if (hasFiles(event)) { event.preventDefault(); over(true); } });
    addEventListener('dragleave', (event) => { if (!event.relatedTarget) over(false); });
    addEventListener('drop', (event) => { over(false); if (hasFiles(event)) this.dropped(event); });
  }

  async chosen(role, field) {
    const files = [...field.files];
    field.value = '';
    await this.takeRead(files, () => role);
  }

  async dropped(event) {
    event.preventDefault();
    const { files, folders } = givenBy(event.dataTransfer);
    const read = await this.readAll(files);
    if (!read) return;
    const program = read.findLast(({ bytes }) => isElf(bytes)), paths = this.source.pathsOf(program?.bytes);
    const isOne = ({ name, bytes }) => !isElf(bytes) && this.source.isOne(name, paths);
    const inFolders = await this.readFolders(folders, paths);
    const sources = [...read.filter(isOne).map(({ name, bytes }) => ({ path: name, bytes })), ...inFolders];
    if (sources.length) this.source.take(sources, program?.name);
    else if (folders.length) this.refuse(this.source.noSource(0, paths));
    const roleOf = ({ name, bytes }) => (isElf(bytes) ? 'program' : isSuppressions(name, bytes) ? 'supp' : 'input');
    await this.takeAll(read.filter((it) => !isOne(it)), roleOf);
  }

  // Reads the source files in folders.
  async readFolders(folders, paths) {
    try {
      const found = await filesIn(folders, (path) => this.source.isOne(path, paths));
      const read = await this.readAll(found.map(({ file }) => file)) ?? [];
      return read.map(({ bytes }, i) => ({ path: found[i].path, bytes }));
    } catch (fault) {
      this.refuse(`The folder can’t be read (${fault.message}).`);
      return [];
    }
  }

  // Reads files and takes each in its role.
  async takeRead(files, roleOf) {
    const read = await this.readAll(files);
    return read ? this.takeAll(read, roleOf) : undefined;
  }

  // The names and bytes of files, null where one can't be read, which a sentence says.
  async readAll(files) {
    const found = [];
    for (const file of files) {
      try {
        if (file.size > LARGEST) throw new TooLarge();
        found.push({ name: file.name, bytes: new Uint8Array(await file.arrayBuffer()) });
      } catch (fault) {
        const told = fault instanceof TooLarge ? `has ${size(file.size)}, which is too much for any file here.`
          : `can’t be read (${fault.message}). Is it a folder?`;
        this.refuse(`“${file.name}” ${told}`);
        return null;
      }
    }
    return found;
  }

  takeAll(read, roleOf) {
    return read.length ? this.take(Object.fromEntries(read.map((it) => [roleOf(it), it]))) : undefined;
  }

  // Takes files beside those that are there. Another program begins without the old one's input and suppressions; what is
  // given before there is a program waits for it, also while an example is shown in the place of what one left off with.
  async take(files, lines) {
    const there = this.waiting ?? this.files, next = files.program && there.program ? files : { ...there, ...files };
    if (next.program) {
      this.waiting = null;
      await this.begin(next, { lines });
      return;
    }
    if (this.waiting) this.waiting = next;
    else this.files = next;
    const names = Object.values(files).map((it) => `“${it.name}”`).join(' and ');
    this.refuse(`${names} will be used with the next program. Open one: an ELF file for RV32IM, as the linker writes it.`, 'good');
  }

  // Opens what a page begins with: what was kept, or an example.
  async first() {
    const { text } = this.kept, name = new URLSearchParams(text ?? '').get('example');
    if (!text || (name !== null && !EXAMPLES.some((it) => it.name === name))) return this.choose(FIRST.name, FIRST.lines);
    await this.follow(`#${text}`, { about: 'You left off with', isVisit: true });
    $('kept-told').hidden = false;
    if (this.wanted) await this.showMeanwhile();
    return undefined;
  }

  // Shows the example until the files are given that one left off with.
  async showMeanwhile() {
    this.waiting = {};
    await this.begin(filesOf(FIRST_EXAMPLE), { lines: FIRST.lines, example: FIRST_EXAMPLE, target: targetFor(FIRST_EXAMPLE) });
    if (this.waiting) this.refuse(`You left off with ${this.missing()} Until then the example “${FIRST.name}” is shown.`, 'good');
  }

  // Throws away what is kept, and begins with the example where one wants to start over.
  forget(isAnew) {
    this.kept.keep(null);
    this.tabs.kept.keep(null);
    this.isForgotten = true;
    $('kept-told').hidden = true;
    if (isAnew) this.choose(FIRST.name, FIRST.lines);
    else this.refuse('Nothing is kept in this browser now. The next edit is kept again.', 'good');
  }

  async choose(name, lines, given = null) {
    const example = EXAMPLES.find((it) => it.name === name);
    this.waiting = null;
    await this.begin(filesOf(example), { lines, example, target: given ?? targetFor(example) });
  }

  // Opens the files that are there for a target of which a part is another one, and uses lines; without a program, that waits for one.
  async again(change, lines) {
    const target = { ...this.target, ...change };
    if (this.files.program) await this.begin(this.files, { lines, example: this.example, target });
    else this.target = target;
    this.targetPanel.show(this.target);
  }

  // Whether a target can be used that a text says; says why where it can't.
  check({ wrong }) {
    const told = Object.values(wrong).join(' ');
    if (told) this.refuse(told);
    return !told;
  }

  async begin(files, { lines = undefined, example = null, target = undefined }) {
    if (example && !this.waiting) this.wanted = null;
    const isWanted = this.wanted && !this.waiting && files[this.wanted.last];
    const used = lines ?? (isWanted ? this.wanted.lines : undefined);
    const notice = this.wanted && used && !this.waiting ? await this.differing(files) : '';
    const isNamed = isWanted || files.program.name === this.wanted?.names.program;
    const shape = { lines: used, example, target: target ?? (isNamed ? this.wanted.target : this.target) };
    if (!await this.open(files, shape)) return;
    if (this.waiting) return;
    if (used) this.wanted = null;
    if (notice && files === this.files) this.refuse(notice);
    if (this.wanted) this.refuse(`Still missing is ${this.missing(files)}`);
  }

  // The sources of the example that is open, which are part of the page.
  get ownSources() { return (this.example?.sources ?? []).map((path) => ({ path, text: SOURCES[path] })); }

  // Notes what is open now.
  hold(files, example, target) {
    this.files = files;
    this.example = example;
    this.target = target;
    this.isForgotten = false;
    this.targetPanel.show(target);
    for (const it of $('examples').children) it.setAttribute('aria-pressed', `${it.textContent === example?.name}`);
  }

  // ---- links

  async link(lines) {
    for (const it of Object.values(this.example ? {} : this.files)) it.sum ??= await sumOf(it.bytes);
    return packed(`#${this.wordsOf(lines, true)}${this.tabs.named ? `&tab=${this.tabs.named}` : ''}`);
  }

  // An edit is made: what a link waited for isn't wanted any more, and what is open is kept.
  edited() {
    if (!this.waiting) this.wanted = null;
    this.isForgotten = false;
  }

  // Keeps what is open, unless it is what a page begins with, or was just thrown away.
  keep(lines) {
    if (this.isForgotten) return;
    const isFirst = this.example?.name === FIRST.name && lines.join() === FIRST.lines.join();
    this.kept.keep(isFirst ? null : this.wordsOf(lines, false));
  }

  // What is open as the words of a link: an example, or the names of files, with checksums where that is wanted; and the lines.
  wordsOf(lines, hasSums) {
    const words = new URLSearchParams();
    if (this.example) words.set('example', this.example.name);
    else {
      for (const [role, it] of Object.entries(this.files)) {
        words.set(role, it.name);
        if (hasSums) words.set(`${role}-sum`, it.sum);
      }
    }
    if (this.target.isa !== (this.example?.isa ?? USUAL)) words.set('isa', this.target.isa);
    for (const [name, value] of Object.entries(givenOf(this.target))) words.set(name, value);
    if (lines.length) words.set('lines', lines.join('\n'));
    return `${words}`;
  }

  // Opens what a link names, or asks for its files.
  async follow(link, { about = 'This link is about', isVisit = false } = {}) {
    const hash = await unpacked(link);
    if (hash === null) return this.refuse('This link is damaged: a part of it is missing, or something else is in it.');
    const words = new URLSearchParams(hash.slice(1));
    const lines = (words.get('lines') ?? '').split('\n').filter(Boolean);
    const example = words.get('example'), own = EXAMPLES.find((it) => it.name === example)?.isa;
    if (own && !words.has('isa')) words.set('isa', own);
    if (!isVisit) this.tabs.open(words.get('tab'));
    const said = targetBy(words), { target } = said;
    if (!this.check(said)) return undefined;
    if (example) {
      if (EXAMPLES.some((it) => it.name === example)) await this.choose(example, lines, target);
      else this.refuse(`There is no example “${example}” here.`);
    } else if (words.get('program')) {
      const roles = ROLES.filter((it) => words.has(it));
      const names = Object.fromEntries(roles.map((it) => [it, words.get(it)]));
      this.wanted = { lines, target, roles, names, last: roles.at(-1), sums: roles.map((it) => words.get(`${it}-sum`)) };
      this.refuse(`${about} ${this.missing()}`);
    }
    return undefined;
  }

  // Which files a link wants that aren't among those there are, and what is done then.
  missing(files = {}) {
    const { roles, names, lines } = this.wanted, left = roles.filter((it) => !files[it]);
    const told = listed(left.map((it) => `“${names[it]}”`), 'and');
    const [these, them] = left.length > 1 ? ['these files', 'them'] : ['this file', 'it'];
    const then = lines.length ? `, and ${many(lines.length, 'line')} of the scenario ${lines.length === 1 ? 'is' : 'are'} used` : '';
    return `${told}. Drop ${these} here, or open ${them}${then}.`;
  }

  // What to say where a file isn't the one that a link was made with.
  async differing(files) {
    const other = [];
    for (const [index, role] of this.wanted.roles.entries()) {
      const it = files[role];
      if (it && this.wanted.sums[index] && (await sumOf(it.bytes)) !== this.wanted.sums[index]) other.push(it.name);
    }
    const names = other.map((it) => `“${it}”`).join(' and ');
    return names && `The link was made with other bytes than those of ${names}, so what you see may differ.`;
  }
}
