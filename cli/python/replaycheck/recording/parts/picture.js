// The picture: a column for each place, a row for each value, with neighbouring rows that are alike drawn as one. Only the columns that are
// in view are drawn.
const HEAD_OF_BYTES = 34, HEAD = 18, FOOT = 4, FOOT_OF_BYTES = 18, NARROWEST = 16, WIDEST = 48, ROOM = 42;
const NONE = -1, AS_RECORDED = -2;

class Picture {
  // `choose` is called with the edits of a cell that is chosen, `tell` with those of one that is pointed at.
  constructor(recorded, { canvas, frame, width }, choose, tell) {
    this.recorded = recorded;
    this.canvas = canvas;
    this.frame = frame;
    this.width = width;
    this.choose = choose;
    this.panel = this.chosen = 0;
    canvas.addEventListener('pointermove', (event) => tell(this.edits(event)));
    canvas.addEventListener('pointerleave', () => tell([]));
    canvas.addEventListener('click', (event) => this.pick(this.edits(event)));
    canvas.addEventListener('keydown', (event) => this.key(event));
    frame.addEventListener('scroll', () => this.draw());
    new ResizeObserver(() => this.draw()).observe(frame);
    matchMedia('(prefers-color-scheme: dark)').addEventListener('change', () => this.draw());
    this.begin(0);
  }

  pick(edits) {
    if (edits.length) this.choose(edits);
  }

  // Shows another panel.
  begin(panel) {
    this.panel = panel;
    this.has = this.recorded.data.panels[panel];
    this.columns = this.has.columns.length;
    this.left = Math.max(...this.has.rows.map((it) => it.length)) > 3 ? 88 : 46;
    this.top = this.has.isOfBytes ? HEAD_OF_BYTES : HEAD;
    this.fold();
    this.frame.scrollLeft = 0;
  }

  // What a cell looks like: by the kind of its worst edit and what is new in it.
  look(column, row) {
    const [edit] = this.recorded.at(this.panel, column, row);
    if (edit === undefined) return this.isRecorded(column, row) ? AS_RECORDED : NONE;
    return this.recorded.rank(edit) * this.recorded.data.found.length + (this.recorded.outcome(edit).new[0] ?? 0);
  }

  isRecorded(column, row) {
    return this.has.isOfBytes && this.has.rows.length === 256 && this.has.before[column] === row;
  }

  // Joins neighbouring rows that are alike.
  fold() {
    const columns = [...this.has.columns.keys()];
    this.groups = [];
    this.has.rows.forEach((_, row) => {
      const looks = columns.map((column) => this.look(column, row)), last = this.groups.at(-1);
      if (last && looks.every((it, i) => it === last.looks[i] || it === AS_RECORDED || last.looks[i] === AS_RECORDED)) {
        last.to = row;
        last.looks = looks.map((it, i) => (it === AS_RECORDED ? last.looks[i] : it));
      } else this.groups.push({ from: row, to: row, looks, y: 0, tall: 0 });
    });
    const least = this.groups.length < 9 ? 22 : this.groups.length < 60 ? 11 : 6;
    let y = this.top;
    for (const it of this.groups) {
      const rows = it.to - it.from + 1;
      Object.assign(it, { y, tall: least + (rows > 19 ? 9 : rows > 3 ? 4 : 0) });
      y += it.tall;
    }
    this.below = y;
    this.height = y + (this.has.isOfBytes ? FOOT_OF_BYTES : FOOT);
  }

  // The width of a column, and the columns that are in view.
  measure() {
    const room = this.frame.clientWidth - this.left;
    this.wide = Math.max(NARROWEST, Math.min(WIDEST, Math.floor(room / this.columns)));
    this.width.style.width = `${this.left + this.wide * this.columns}px`;
    this.first = Math.min(this.columns - 1, Math.max(0, Math.floor(this.frame.scrollLeft / this.wide)));
    this.last = Math.min(this.columns, this.first + Math.ceil(room / this.wide) + 1);
  }

  x(column) {
    return this.left + (column - this.first) * this.wide;
  }

  draw() {
    this.measure();
    const scale = devicePixelRatio || 1, { canvas } = this, wide = this.frame.clientWidth;
    Object.assign(canvas, { width: Math.round(wide * scale), height: Math.round(this.height * scale) });
    Object.assign(canvas.style, { width: `${wide}px`, height: `${this.height}px` });
    const on = canvas.getContext('2d'), style = getComputedStyle(document.documentElement);
    const colour = (name) => style.getPropertyValue(`--${name}`).trim();
    on.scale(scale, scale);
    for (let column = this.first; column < this.last; column++) this.drawColumn(on, column, colour);
    this.drawNames(on, colour);
    this.drawChosen(on, colour);
  }

  drawColumn(on, column, colour) {
    const x = this.x(column), many = this.recorded.data.found.length || 1;
    for (const it of this.groups) {
      const look = it.looks[column];
      if (look === NONE) continue;
      on.fillStyle = colour(look === AS_RECORDED ? 'o0' : KINDS[Math.floor(look / many)]);
      on.fillRect(x, it.y, this.wide - 1, it.tall - 0.5);
    }
    const row = this.has.before[column], group = this.groups.find((it) => it.from <= row && row <= it.to);
    if (this.has.isOfBytes && this.has.rows.length === 256 && group) {
      on.fillStyle = colour('ink');
      on.beginPath();
      on.arc(x + this.wide / 2 - 0.5, group.y + group.tall * (row - group.from + 0.5) / (group.to - group.from + 1), 2, 0, 7);
      on.fill();
    }
  }

  // Names of columns above, those of rows on the left, as many as have room.
  drawNames(on, colour) {
    on.font = '11px ui-monospace, "DejaVu Sans Mono", monospace';
    on.textAlign = 'center';
    const every = Math.ceil((this.has.isOfBytes ? 44 : 90) / this.wide);
    for (let column = this.first; column < this.last; column++) {
      const middle = this.x(column) + this.wide / 2, value = this.has.before[column];
      on.fillStyle = colour(this.has.isOfBytes ? 'ink' : 'quiet');
      if (!this.has.isOfBytes && column % every === 0) on.fillText(this.has.columns[column], middle + ROOM / 2, 12);
      if (this.has.isOfBytes) this.drawOffset(on, column, middle, every, colour);
      if (!this.has.isOfBytes || typeof value !== 'number') continue;
      on.fillText(value.toString(16).padStart(2, '0'), middle, 12);
      on.fillStyle = colour('quiet');
      if (value > 32 && value < 127) on.fillText(String.fromCharCode(value), middle, 26);
    }
    on.clearRect(0, 0, this.left - 1, this.height);
    on.textAlign = 'right';
    on.fillStyle = colour('quiet');
    let below = 0;
    for (const it of this.groups) {
      const y = it.y + it.tall / 2 + 4, names = this.has.rows;
      if (y - below < 11) continue;
      on.fillText(it.from === it.to ? names[it.from] : `${names[it.from]}–${names[it.to]}`, this.left - 4, y);
      below = y;
    }
  }

  // The offset of a byte below its column.
  drawOffset(on, column, middle, every, colour) {
    on.fillStyle = colour('quiet');
    if (column % every === 0) on.fillText(this.has.columns[column], middle, this.below + 13);
    on.fillStyle = colour('ink');
  }

  // The rows that are drawn as one with that of an edit.
  groupOf(edit) {
    const row = this.recorded.row[edit];
    return this.groups.find(({ from, to }) => from <= row && row <= to);
  }

  drawChosen(on, colour) {
    const { recorded, chosen } = this, column = recorded.column[chosen];
    const it = this.groupOf(chosen);
    if (!chosen || !it || recorded.panel[chosen] !== this.panel || column < this.first) return;
    on.strokeStyle = colour('ink');
    on.lineWidth = 1;
    on.strokeRect(this.x(column) - 1.5, this.top - 1.5, this.wide + 2, this.below - this.top + 2.5);
    on.strokeStyle = colour('pick');
    on.lineWidth = 3;
    on.strokeRect(this.x(column) - 1, it.y - 1, this.wide + 1, it.tall + 1.5);
  }

  // Rings an edit, and brings it into view.
  ring(edit) {
    this.chosen = edit;
    if (edit && this.recorded.panel[edit] !== this.panel) this.begin(this.recorded.panel[edit]);
    this.measure();
    const column = this.recorded.column[edit];
    if (edit && (column < this.first || column >= this.last - 1)) this.frame.scrollLeft = (column - 1) * this.wide;
    const it = this.groupOf(edit), { scrollTop, clientHeight } = this.frame;
    if (edit && it && (it.y < scrollTop || it.y + it.tall > scrollTop + clientHeight)) this.frame.scrollTop = it.y - clientHeight / 2;
    this.draw();
  }

  // The edits of the cell at a place of the picture: of rows that are alike those of the first one that has some.
  edits(event) {
    const { left, top } = this.canvas.getBoundingClientRect(), x = event.clientX - left, y = event.clientY - top;
    const column = this.first + Math.floor((x - this.left) / this.wide);
    const group = this.groups.find((it) => y >= it.y && y < it.y + it.tall);
    return x < this.left || column >= this.columns || !group ? [] : this.editsIn(column, group);
  }

  editsIn(column, group) {
    for (let row = group.from; row <= group.to; row++) {
      const found = this.recorded.at(this.panel, column, row);
      if (found.length) return found;
    }
    return [];
  }

  // Arrow keys go to the next cell that has an edit.
  key(event) {
    const [across, down] = { ArrowLeft: [-1, 0], ArrowRight: [1, 0], ArrowUp: [0, -1], ArrowDown: [0, 1] }[event.key] ?? [0, 0];
    if (!across && !down) return;
    event.preventDefault();
    const { recorded, chosen } = this;
    let column = chosen ? recorded.column[chosen] : 0, at = this.groups.indexOf(this.groupOf(chosen));
    for (;;) {
      column += across;
      at += down;
      if (column < 0 || column >= this.columns || !this.groups[at]) return;
      const found = this.editsIn(column, this.groups[at]);
      if (found.length) {
        this.pick(found);
        return;
      }
    }
  }
}
