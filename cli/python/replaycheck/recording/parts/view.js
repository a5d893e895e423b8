// The page of a recording: the chosen edit, its report, its output and its place in the source. All texts become text nodes.
/** @returns {any} */
const byId = (id) => document.getElementById(id);

function made(tag, className, ...inside) {
  const it = document.createElement(tag);
  it.className = className;
  it.append(...inside);
  return it;
}

class View {
  constructor(data) {
    this.recorded = new Recorded(data);
    this.data = data;
    this.links = [...document.querySelectorAll('a.show')].map((it) => decoded(it.getAttribute('href') ?? ''));
    this.edit = 0;
    const parts = { canvas: byId('picture'), frame: byId('frame'), width: byId('width') };
    this.picture = data.panels.length ? new Picture(this.recorded, parts, (edits) => this.go(edits[0]), (edits) => this.tell(edits)) : null;
    byId('panels').append(...data.panels.map((it, at) => new Option(it.caption, `${at}`)));
    byId('panels').hidden = data.panels.length < 2;
    this.listen();
    this.read();
  }

  listen() {
    addEventListener('hashchange', () => this.read());
    byId('recorded').addEventListener('click', () => this.go(0));
    byId('next').addEventListener('click', () => this.goNext());
    byId('next').disabled = !this.links.length;
    byId('bar').addEventListener('submit', (event) => {
      event.preventDefault();
      this.typed(byId('line').value.trim().replace(/ +/g, ' '));
    });
    byId('panels').addEventListener('change', () => {
      this.picture.begin(Number(byId('panels').value));
      this.picture.draw();
      this.caption();
    });
    byId('several').addEventListener('change', () => this.go(Number(byId('several').value)));
  }

  // Shows what the address asks for, or else the first place of something new.
  read() {
    const line = decoded(location.hash), edit = line ? this.recorded.find(line) : 0;
    byId('problem').textContent = line && !edit ? `This file doesn’t have ${line}` : '';
    this.show(line || location.hash === '#' ? edit : this.recorded.find(this.links[0] ?? ''));
  }

  go(edit) {
    history.pushState(null, '', edit ? encoded(this.recorded.line(edit)) : '#');
    byId('problem').textContent = '';
    this.show(edit);
  }

  goNext() {
    const at = this.links.indexOf(this.recorded.line(this.edit));
    this.go(this.recorded.find(this.links[(at + 1) % this.links.length]));
  }

  typed(line) {
    const edit = line ? this.recorded.find(line) : 0;
    if (edit || !line) this.go(edit);
    else byId('problem').textContent = `This file doesn’t have ${line}`;
  }

  show(edit) {
    this.edit = edit;
    byId('line').value = this.recorded.line(edit);
    byId('recorded').disabled = !edit;
    this.picture?.ring(edit);
    if (this.picture) byId('panels').value = `${this.picture.panel}`;
    this.caption();
    this.several();
    this.verdict();
    this.tell([]);
    this.source();
    this.output();
    const report = this.recorded.report(this.edit);
    byId('report').textContent = report ? report.join('\n') : 'This file doesn’t have the report of this edit.';
  }

  caption() {
    const panel = this.picture && this.data.panels[this.picture.panel];
    byId('caption').textContent = panel && this.data.panels.length < 2 ? panel.caption : '';
  }

  // The list of the edits of a cell that has several.
  several() {
    const { edit, recorded } = this;
    const edits = edit ? recorded.at(recorded.panel[edit], recorded.column[edit], recorded.row[edit]) : [];
    byId('alike').hidden = edits.length < 2;
    byId('several').replaceChildren(...edits.map((it) => new Option(recorded.line(it), `${it}`, false, it === edit)));
  }

  verdict() {
    const { edit, recorded } = this, { has, new: news, state } = recorded.outcome(edit), [worst] = recorded.found(edit);
    const told = worst ? `${worst.title}${worst.where && ` in ${worst.where}`}` : 'no error or leak';
    const still = edit && worst && !news.length ? 'nothing new; as recorded ' : '';
    byId('verdict').textContent = `${edit ? recorded.line(edit) : 'As recorded'}: ${still}${told}`;
    byId('verdict').className = (edit ? news : has).length ? 'bad' : 'good';
    const others = (news.length || has.length) - 1, same = state === recorded.outcome(0).state;
    const before = !edit ? '' : same ? ', as recorded' : ` (as recorded: ${recorded.outcome(0).state})`;
    const more = others > 0 ? `The report has ${others} more.` : '';
    byId('more').textContent = `At step ${this.data.step}: ${state}${before}. ${more}`;
  }

  // What is said of the cell that is pointed at, or of the chosen one.
  tell(edits) {
    const { recorded, data } = this, edit = edits[0] ?? this.edit;
    if (!edit) {
      byId('told').textContent = 'Choose a cell. A dot is the value as recorded.';
      return;
    }
    const panel = data.panels[recorded.panel[edit]], column = recorded.column[edit], was = panel.before[column];
    const before = typeof was === 'number' ? `was ${was} (0x${was.toString(16).padStart(2, '0')})` : was ? `was ${was}` : '';
    const note = data.notes[numbersOf(panel.notes)[column]], [worst] = recorded.found(edit), { new: news, state } = recorded.outcome(edit);
    const says = news.length ? `${state}; ${worst.title}${worst.where && ` in ${worst.where}`}` : `${state}, nothing new`;
    byId('told').textContent = `${[recorded.line(edit), before, note].filter(Boolean).join(', ')}: ${says}`;
  }

  // The source with what is found at its line.
  source() {
    const found = this.recorded.found(this.edit), one = found.find((it) => it.at) ?? found[0];
    const [number, line] = one?.at ?? [0, 0], file = this.data.files[number];
    byId('file').textContent = line ? `${file.name}, line ${line}` : 'Source';
    const rows = line ? file.pieces.flatMap(([first, lines], at) => [...(at ? [made('div', 'gap', '…')] : []),
      ...lines.map((text, i) => this.row(first + i, text, first + i === line ? one : null))]) : [];
    const missing = one ? `${one.title}${one.where && ` in ${one.where}`}` : 'There is no error or leak to show.';
    if (!rows.length || !file.pieces.some(([first, lines]) => line >= first && line < first + lines.length)) {
      rows.unshift(this.message(one, missing), ...(line ? [made('p', 'quiet', 'The source isn’t in this file.')] : []));
    }
    byId('source').replaceChildren(...rows);
    const hit = byId('source').querySelector('.message');
    byId('source').scrollTop = hit instanceof HTMLElement ? Math.max(0, hit.offsetTop - byId('source').clientHeight / 2) : 0;
  }

  row(number, text, found) {
    const row = made('div', found ? 'row hit' : 'row', made('span', 'number', `${number}`), made('span', 'text', text));
    return found ? made('div', '', row, this.message(found, found.title)) : row;
  }

  message(found, text) {
    const calls = (frames) => frames.map((it) => this.data.frames[it.slice(6)]?.[0] ?? it.slice(6)).join(' ‹ ');
    const note = found ? noteOf(this.recorded.report(this.edit) ?? [], found) : { text: '', trace: [] };
    const rest = [note.text && made('div', '', `${note.text}.`), note.trace.length && made('div', 'quiet', calls(note.trace)),
      found?.trace.length && made('div', 'quiet', `Trace: ${calls(found.trace)}`)].filter((it) => it instanceof HTMLElement);
    return made('div', 'message', made('b', '', text), ...rest);
  }

  output() {
    const output = this.recorded.output(this.edit), recorded = this.recorded.output(0) ?? '', most = this.data.mostOutput;
    const same = output === recorded;
    const told = [output?.length === most ? `the first ${most} bytes` : output ? '' : 'none', this.edit && same ? 'as recorded' : ''];
    byId('wrote-told').textContent = output === null ? 'this file doesn’t have that of this edit' : told.filter(Boolean).join(', ');
    byId('output').textContent = shownBytes(output ?? '');
    byId('was').textContent = same || output === null ? '' : `as recorded:\n${shownBytes(recorded) || 'none'}`;
    byId('was').hidden = same || output === null;
  }
}

// The line of an edit that the part of an address after `#` has, and the other way round.
function decoded(hash) {
  try {
    return decodeURIComponent(hash.slice(1).replace(/\+/g, ' '));
  } catch {
    return '';
  }
}

function encoded(line) {
  return `#${encodeURIComponent(line).replace(/%20/g, '+').replace(/%3B/g, ';')}`;
}

document.documentElement.classList.add('scripted');
new View(JSON.parse(byId('data').textContent ?? ''));
