// The source beside the code: the lines of the function where the run is, or of the one that is looked at. Its text comes from an example
// or from files that the user gives; nothing is fetched.
import { $, $input, element, say } from '../common/dom.js';
import { hexWord, listed, many } from '../common/numbers.js';
import { Elf } from '../debuginfo/elf.js';
import { Lines, nameIn } from '../debuginfo/lines.js';
import { SourceFiles, isSource, spanOf } from '../files/source-files.js';

const LONGEST = 1 << 22, LONGEST_LINE = 1000;  // bytes of a source file, and letters of a line
const MOST_TOLD = 6;  // names in a sentence
const MOST_MESSAGES = 8;  // errors and leaks that are said at one line

export class SourcePanel {
  visitCode;
  refuse;
  rowsDrawn;
  path = null;
  given = new Map();
  opened = null;
  pc = null;
  step = null;
  address = null;
  /** @type {SourceFiles} */ own;
  drawn;
  found;
  begin;
  messages = [];

  // `visit` has the code at an address shown; `refuse` takes a sentence; `drawn` is told of rows that were made anew.
  constructor({ visit, refuse, drawn }) {
    this.visitCode = visit;
    this.refuse = refuse;
    this.rowsDrawn = drawn;
    for (const id of ['open-sources', 'open-folder']) {
      const field = $input(id);
      field.addEventListener('change', async () => {
        const files = [...field.files];
        field.value = '';
        await this.choose(files);
      });
    }
  }

  // Shows the sources of a program, of which an example has some itself.
  open(opened, own = []) {
    this.opened = opened;
    this.own = new SourceFiles();
    this.pc = null;
    this.step = null;
    this.address = null;
    this.drawn = null;
    this.messages = [];
    this.found = new Map();
    for (const { path, text } of own) this.own.add(path, text);
    this.draw();
  }

  get program() { return this.opened?.files.program.name; }

  // The paths of the sources of a program by its bytes, or of the one that is open.
  pathsOf(bytes) { return bytes ? new Lines(new Elf(bytes)).paths : this.opened?.lines.paths ?? new Set(); }

  // Which of some names are sources of a program, by the paths that it has.
  isOne(name, paths) { return isSource(name, paths); }

  // Takes source files for a program, by its name: each with a path and bytes.
  take(all, program = this.program) {
    const files = all.filter(({ bytes }) => bytes.length <= LONGEST);
    if (!this.given.has(program)) this.given.set(program, new SourceFiles());
    for (const { path, bytes } of files) this.given.get(program).add(path, new TextDecoder().decode(bytes));
    this.drawn = null;
    this.found = new Map();
    this.draw();
    const names = files.slice(0, MOST_TOLD).map(({ path }) => `“${nameIn(path)}”`), more = files.length - names.length;
    const told = listed(more ? [...names, many(more, 'other file')] : names, 'and');
    const [is, it] = files.length === 1 ? ['is', 'it'] : ['are', 'them'];
    if (program === this.program) this.refuse(`${told} ${is} shown beside the code that comes from ${it}.`, 'good');
  }

  // Reads files that are chosen, of which those are taken that are sources.
  async choose(files) {
    const paths = this.pathsOf(), named = files.map((file) => ({ path: file.webkitRelativePath || file.name, file }));
    const found = named.filter(({ path, file }) => isSource(path, paths) && file.size <= LONGEST);
    const read = await Promise.all(found.map(async ({ path, file }) => ({ path, bytes: new Uint8Array(await file.arrayBuffer()) })));
    if (read.length) this.take(read);
    else if (files.length) this.refuse(this.noSource(files.length, paths));
  }

  // What to say where none of some files is a source of the program.
  noSource(count, paths) {
    const names = [...new Set([...paths].map(nameIn))], told = names.slice(0, MOST_TOLD).map((it) => `“${it}”`);
    if (!names.length) return `“${this.program}” names no source files. A program that is built with -g does.`;
    const more = names.length > MOST_TOLD ? [many(names.length - MOST_TOLD, 'other file')] : [];
    const none = count === 1 ? 'This file isn’t a source' : 'None of these files is a source';
    return `${none} of “${this.program}”, which was built from ${listed([...told, ...more], 'and')}.`;
  }

  // ---- what is shown

  // The run is at an instruction before a step, null where it has ended: then what was shown stays.
  follow(pc, step) {
    const isNew = pc !== this.pc || step !== this.step;
    this.pc = pc;
    this.step = step;
    if (isNew && pc !== null) this.address = pc;
    this.draw();
  }

  // An address is looked at.
  visit(address) {
    this.address = address;
    this.draw();
  }

  // Shows what a report says of lines, each by an address.
  tell(messages) {
    if (JSON.stringify(messages) === JSON.stringify(this.messages)) return;
    this.messages = messages;
    this.drawn = null;
    this.draw();
  }

  draw() {
    if (!this.opened) return;
    const { lines } = this.opened, place = this.address === null ? null : lines.placeAt(this.address);
    const file = place && this.find(place.path);
    if (!file || place.line > file.lines.length) {
      this.drawn = null;
      this.path = null;
      $('source-rows').replaceChildren();
      say('source-told', this.missing(place, file));
      return;
    }
    const { begin, end } = spanOf(place.line, this.openings(place.path), file.lines);
    const key = `${file.path}:${begin}-${end}`;
    if (this.drawn !== key) this.render(file, place.path, begin, end);
    this.drawn = key;
    this.begin = begin;
    this.path = place.path;
    this.mark(place);
    this.rowsDrawn();
    const unsure = file.isUnsure ? ', or another file of this name: give a folder' : '';
    say('source-told', `${nameIn(file.path)}${unsure}`);
  }

  find(path) {
    const { found } = this, { paths } = this.opened.lines;
    if (!found.has(path)) found.set(path, this.given.get(this.program)?.find(path, paths) ?? this.own.find(path, paths));
    return found.get(path);
  }

  // What to say where no line is shown.
  missing(place, file) {
    if (!this.opened.lines.paths.size) return 'The program has no line numbers. Build it with -g to see its source here.';
    if (!place) return 'There is no line for this address.';
    const name = nameIn(place.path);
    if (!file) return `Drop ${name} anywhere on this page to see its lines, or choose it here.`;
    const has = many(file.lines.length, 'line');
    return `This ${name} has ${has} and the program is built from its line ${place.line}: it must be another version.`;
  }

  // The lines at which functions of a file begin, in order.
  openings(path) {
    const { elf, lines } = this.opened;
    this.opened.openings ??= elf.functions.map(({ address }) => lines.openingAt(address)).filter(Boolean);
    return this.opened.openings.filter((it) => it.path === path).map((it) => it.line).sort((a, b) => a - b);
  }

  render(file, path, begin, end) {
    const { elf, lines } = this.opened, { address, size } = elf.functionAt(this.address) ?? { address: 0, size: 0 };
    const starts = lines.linesIn(path, address, address + size);
    const places = this.messages.map((it) => ({ ...it, ...lines.placeAt(it.address) })).filter((it) => it.path === path);
    const rows = file.lines.slice(begin - 1, end).flatMap((text, i) => [this.row(begin + i, text, starts.get(begin + i)),
      ...places.filter((it) => it.line === begin + i).slice(0, MOST_MESSAGES).map((it) => this.message(it))]);
    $('source-rows').replaceChildren(...rows);
  }

  row(line, text, address) {
    const number = address === undefined ? String(line)
      : element('button', { onclick: () => this.visitCode(address), title: `the code of this line, at ${hexWord(address)}`,
        'aria-label': `line ${line}: show its code` }, String(line));
    const made = element('tr', {}, element('td', { className: 'quiet number' }, number),
      element('td', { className: 'text' }, text.slice(0, LONGEST_LINE) || ' '));
    made.dataset.line = `${line}`;
    return made;
  }

  message({ text, isError, line }) {
    const made = element('tr', { className: 'message' }, element('td', { className: 'number' }),
      element('td', { className: `text ${isError ? 'bad' : 'lost'}` }, text));
    made.dataset.line = `${line}`;
    return made;
  }

  // Marks the line where the run is, and the one that is looked at, which comes into view.
  mark(place) {
    const now = this.pc === null ? null : this.opened.lines.placeAt(this.pc);
    const rows = [...$('source-rows').querySelectorAll('tr')].filter((it) => !it.classList.contains('message'));
    for (const [i, row] of rows.entries()) {
      const line = this.begin + i, isNow = now?.path === place.path && now.line === line;
      row.className = isNow ? 'now' : line === place.line ? 'at' : '';
      if (isNow) row.setAttribute('aria-current', 'step');
      else row.removeAttribute('aria-current');
    }
    const row = rows[place.line - this.begin], box = $('source');
    if (!row) return;
    const isSeen = row.offsetTop >= box.scrollTop && row.offsetTop + row.offsetHeight <= box.scrollTop + box.clientHeight;
    if (!isSeen) box.scrollTop = row.offsetTop - box.clientHeight / 2;
  }
}
