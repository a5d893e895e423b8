// Where blocks of the heap are in a map of them: one after the other by their addresses, in as many rows as it takes. Each has a least
// width, and more by its size; so have the places between them.
export const TALL = 20;  // pixels of a row
const LEAST = 4, BETWEEN = 1;  // pixels of a block, and of a place between two
const MOST_EACH = 6;  // pixels of a byte
const LONGEST_GAP = 12;  // pixels of a place that nothing uses
const EDGE = 0.01;  // pixels from the end of a row, of a point beyond it
const FULL_ROWS = 4;  // rows over which sizes are spread, beside what the least widths take

export class BlockMap {
  blocks;
  wide;
  begins = [];
  ends = [];
  rows;

  // Places blocks, in order, in rows of a width.
  constructor(blocks, wide) {
    this.blocks = blocks;
    this.wide = Math.max(LEAST, wide);
    const least = blocks.length * (LEAST + BETWEEN), bytes = blocks.reduce((sum, it) => sum + it.size, 0) || 1;
    const rows = Math.max(1, Math.ceil(least / this.wide)) + (least > this.wide ? FULL_ROWS : 0);
    const each = Math.max(0, Math.min(MOST_EACH, (rows * this.wide - least) / bytes));
    let at = 0, last = null;
    for (const { start, size } of blocks) {
      const apart = last === null ? 0 : start - last;
      if (last !== null) at += Math.max(BETWEEN, Math.min(LONGEST_GAP, apart * each / 4));
      this.begins.push(at);
      this.ends.push(at += LEAST + size * each);
      last = start + size;
    }
    this.rows = Math.max(1, Math.ceil(at / this.wide));
  }

  get count() { return this.begins.length; }

  // The parts of a block, one in each row that it is in: from the left, from the top, and their width.
  *partsOf(index) {
    let at = this.begins[index];
    const end = this.ends[index];
    while (at < end) {
      const row = Math.floor(at / this.wide), until = Math.min(end, (row + 1) * this.wide);
      yield { x: at - row * this.wide, row, wide: until - at };
      at = until;
    }
  }

  // The block at a point, or the one that is nearest in its row; -1 where there is none.
  at(x, row) {
    const along = x < this.wide ? Math.max(0, x) : this.wide - EDGE;
    const place = along + this.wide * Math.max(0, Math.min(this.rows - 1, row));
    let low = 0, high = this.count;
    while (low < high) {
      const middle = (low + high) >> 1;
      if (this.begins[middle] <= place) low = middle + 1;
      else high = middle;
    }
    const before = Math.max(0, low - 1), after = Math.min(low, this.count - 1);
    if (!this.count) return -1;
    return this.begins[after] - place < place - this.ends[before] ? after : before;
  }

  // The block that an arrow key leads to.
  next(index, key) {
    const along = { ArrowLeft: -1, ArrowRight: 1 }[key], across = { ArrowUp: -1, ArrowDown: 1 }[key];
    const last = this.count - 1, within = (it) => Math.max(0, Math.min(last, it));
    if (key === 'Home' || key === 'End') return key === 'Home' ? 0 : last;
    if (along) return within(index + along);
    if (!across) return null;
    const middle = (this.begins[index] + this.ends[index]) / 2, row = Math.floor(middle / this.wide) + across;
    if (row < 0 || row >= this.rows) return index;
    const found = this.at(middle % this.wide, row);
    return found === index ? within(index + across) : found;
  }
}
