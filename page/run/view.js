// The stretch of steps that a strip shows, within all steps of a run.
const LEAST = 16;  // steps that are shown
const MARGIN = 0.1;  // of the stretch, between its ends and a step that comes into view

export class View {
  last;
  from;
  to;

  constructor(last = 1) {
    this.last = Math.max(1, last);
    this.all();
  }

  all() {
    this.from = 0;
    this.to = this.last;
  }

  get wide() { return this.to - this.from; }
  get isAll() { return this.from === 0 && this.to === this.last; }

  // Has another number of steps. What was shown stays in view as far as it is there.
  resize(last) {
    const wasAll = this.isAll;
    this.last = Math.max(1, last);
    if (wasAll) this.all();
    else this.place(this.from, this.wide);
  }

  place(from, wide) {
    const width = Math.min(this.last, Math.max(Math.min(LEAST, this.last), wide));
    this.from = Math.max(0, Math.min(this.last - width, from));
    this.to = this.from + width;
  }

  // Shows so many times as many steps; one of them stays where it is.
  zoom(times, at) {
    const wide = Math.min(this.last, Math.max(Math.min(LEAST, this.last), this.wide * times));
    this.place(at - (at - this.from) * wide / this.wide, wide);
  }

  pan(steps) { this.place(this.from + steps, this.wide); }

  // Has a step in view, and moves no more than that needs.
  reach(step) {
    const margin = this.wide * MARGIN;
    if (step < this.from) this.place(step - margin, this.wide);
    else if (step > this.to) this.place(step + margin - this.wide, this.wide);
  }
}
