// Reads the table of a part of a sweep while it is written: its outcomes as texts, its edits as numbers.
import { alterationIn } from '../sweep/alterations.js';

const EDITS = { input: 3, patch: 3, patch16: 3, skip: 2, flip: 4, set: 4 };  // how many words come after the first one

export class SweepTable {
  rest = '';
  outcome = null;
  outcomes = [];
  edits = [];
  isWhole = false;
  inHead = true;

  // Takes some more of the text. What was found since `take` was called last is what it gives.
  add(text) {
    const lines = (this.rest + text).split('\n');
    this.rest = lines.pop();
    for (const line of lines) this.line(line);
  }

  line(line) {
    if (this.inHead && !line.startsWith('outcome ')) return;
    this.inHead = false;
    const [first, ...fields] = line.split(' ');
    if (first === 'outcome') {
      this.close();
      this.outcome = [];
    } else if (EDITS[first] === fields.length) {
      this.close();
      const edit = alterationIn([first, ...fields]) ?? fields.slice(0, 2).map(Number);
      this.edits.push(...edit, Number(fields.at(-1)));
    } else if (first === 'unedited' || first === 'tally') {
      this.close();
    } else if (first === 'end') {
      this.isWhole = true;
    } else if (this.outcome) {
      this.outcome.push(line);
    }
  }

  close() {
    if (this.outcome) this.outcomes.push(this.outcome.join('\n'));
    this.outcome = null;
  }

  take() {
    const found = { outcomes: this.outcomes, edits: new Float64Array(this.edits) };
    this.outcomes = [];
    this.edits = [];
    return found;
  }
}
