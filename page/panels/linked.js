// A line of the source, its instructions and the cells of the picture whose worst new error is there: what one points at, or has the focus
// in, is marked in the others.
import { $ } from '../common/dom.js';

const isThere = (place, { path, line }) => place?.path === path && place.line === line;

export class Linked {
  placeAt;
  pathOf;
  point;
  place = null;
  isMarked = false;

  // `placeAt` tells the path and the line of an address, and `pathOf` the path of the source that is shown; `point` takes a test of
  // addresses: the picture shows no other outcomes than those whose worst new error it is true of, or all without one.
  constructor({ placeAt, pathOf, point }) {
    this.placeAt = placeAt;
    this.pathOf = pathOf;
    this.point = point;
    this.listen('source-rows', ({ line }) => (line === undefined ? null : { path: this.pathOf(), line: Number(line) }));
    this.listen('code-rows', ({ address }) => (address === undefined ? null : this.placeAt(Number(address))));
  }

  listen(id, placeOf) {
    const show = ({ target }) => {
      const row = target instanceof Element ? target.closest('tr') : null;
      this.show(row && placeOf(row.dataset), true);
    };
    for (const it of ['pointerover', 'focusin']) $(id).addEventListener(it, show);
    for (const it of ['pointerleave', 'focusout']) $(id).addEventListener(it, () => this.show(null, true));
  }

  // What the picture has pointed out: the address of an error, null where there is none.
  pointed(address) { this.show(address === null ? null : this.placeAt(address), false); }

  // Marks a place; `isWhole` also in the picture.
  show(place, isWhole) {
    if (place?.path === this.place?.path && place?.line === this.place?.line) return;
    this.place = place ?? null;
    this.mark();
    if (isWhole) this.point(place && ((address) => isThere(this.placeAt(address), place)));
  }

  // Marks the rows of the place that is linked, and no others.
  mark() {
    const { place } = this, isOfSource = Boolean(place) && place.path === this.pathOf();
    if (!place && !this.isMarked) return;
    this.isMarked = Boolean(place);
    for (const row of $('source-rows').querySelectorAll('tr')) {
      row.classList.toggle('linked', isOfSource && row.dataset.line === `${place.line}`);
    }
    for (const row of $('code-rows').querySelectorAll('tr')) {
      row.classList.toggle('linked', Boolean(place) && isThere(this.placeAt(Number(row.dataset.address)), place));
    }
  }
}
