// The scenarios that one has made, so that edits can be undone and made again.
const MOST = 1000;

export class History {
  all;
  place = 0;
  series = null;

  constructor(first) {
    this.all = [first];
  }

  get now() { return this.all[this.place]; }
  get canUndo() { return this.place > 0; }
  get canRedo() { return this.place < this.all.length - 1; }

  // Takes the next scenario. Those of one series, as the digits of a byte or a slider's values, are undone as one.
  add(scenario, series = null) {
    const goesOn = series !== null && series === this.series && this.canUndo;
    this.all = [...this.all.slice(0, goesOn ? this.place : this.place + 1), scenario].slice(-MOST);
    this.place = this.all.length - 1;
    this.series = series;
  }

  // Goes some places on or back, where there are so many. Whether it did.
  travel(by) {
    if (!this.all[this.place + by]) return false;
    this.place += by;
    this.series = null;
    return true;
  }

  // Goes back to a scenario that was shown before, and forgets those after it. One that wasn't takes the place of the last.
  backTo(scenario) {
    const at = this.all.lastIndexOf(scenario, this.place);
    this.all = at < 0 ? [...this.all.slice(0, this.place), scenario] : this.all.slice(0, at + 1);
    this.place = this.all.length - 1;
    this.series = null;
  }
}
