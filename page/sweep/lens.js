// A magnifier for a finger on the picture, whose cells are smaller than it: while it is held there, the cells around it are drawn large
// above it. A finger makes no edit by itself, since it can't be aimed: a button makes the edit that it was lifted from.
import { $, $canvas, isTouch } from '../common/dom.js';
import { COLOURS } from './colours.js';

const HELD = 150;  // milliseconds after which a finger isn't about to scroll
const WIDE = 9, TALL = 13;  // cells that are seen
const CELL = 18, LOW = 14;  // pixels of a cell
const ABOVE = 28;  // pixels between a finger and the magnifier
const SLACK = 10;  // pixels that a finger moves while it is held

export class Lens {
  picture;
  canvas = $canvas('lens');
  timer = null;
  begun = null;

  constructor(picture) {
    this.picture = picture;
    const { canvas } = picture;
    canvas.addEventListener('pointerdown', (event) => this.begin(event));
    canvas.addEventListener('pointermove', (event) => this.move(event));
    for (const it of ['pointerup', 'pointercancel']) canvas.addEventListener(it, () => this.end());
    canvas.addEventListener('touchmove', (event) => { if (this.isShown) event.preventDefault(); }, { passive: false });
    canvas.addEventListener('contextmenu', (event) => { if (this.begun) event.preventDefault(); });
  }

  get isShown() { return !this.canvas.hidden; }


  begin(event) {
    $('picture-make').hidden = !isTouch(event);
    if (!isTouch(event)) return;
    this.begun = { x: event.clientX, y: event.clientY };
    this.timer = setTimeout(() => this.show(event), HELD);
  }

  show(event) {
    this.picture.point(event);
    this.canvas.hidden = false;
    this.place(event);
  }

  move(event) {
    if (!this.begun) return;
    if (this.isShown) this.place(event);
    else if (Math.hypot(event.clientX - this.begun.x, event.clientY - this.begun.y) > SLACK) clearTimeout(this.timer);
  }

  end() {
    clearTimeout(this.timer);
    this.begun = null;
    this.canvas.hidden = true;
  }

  // Above the finger, within the picture's width.
  place({ clientX, clientY }) {
    const box = this.picture.canvas.getBoundingClientRect(), wide = WIDE * CELL, tall = TALL * LOW;
    this.canvas.style.left = `${Math.max(0, Math.min(box.width - wide, clientX - box.left - wide / 2))}px`;
    this.canvas.style.top = `${clientY - box.top - tall - ABOVE}px`;
    this.draw();
  }

  draw() {
    if (!this.isShown) return;
    const { cells, columns, rows, looks, here } = this.picture, scale = devicePixelRatio || 1, [light, dark] = COLOURS.unedited;
    const on = this.canvas.getContext('2d'), isDark = this.picture.isDark;
    this.canvas.width = WIDE * CELL * scale;
    this.canvas.height = TALL * LOW * scale;
    on.scale(scale, scale);
    on.fillStyle = isDark ? dark : light;
    on.fillRect(0, 0, WIDE * CELL, TALL * LOW);
    for (let x = 0; x < WIDE; x++) {
      for (let y = 0; y < TALL; y++) {
        const [column, row] = [here.column + x - (WIDE >> 1), here.row + y - (TALL >> 1)];
        const cell = column >= 0 && column < columns && row >= 0 && row < rows ? cells[column * rows + row] : null;
        if (!cell || !looks?.[cell.number]) continue;
        on.fillStyle = looks[cell.number].colour;
        on.fillRect(x * CELL, y * LOW, CELL - 1, LOW - 1);
      }
    }
    on.lineWidth = 2;
    on.strokeStyle = isDark ? '#ffffff' : '#000000';
    on.strokeRect((WIDE >> 1) * CELL, (TALL >> 1) * LOW, CELL - 1, LOW - 1);
  }
}
