// Parts what a program writes for lines into its replies: a report goes up to its summary, looks at registers and at memory have so
// many lines, lists of calls and of blocks go up to a line that ends them, and any other reply is a line.
import { LISTS, LIST_ENDS, LOOKS, REFUSED, REPORT, SUMMARY, WHOLE } from '../facts.js';

const LAST_LINE = `\n${SUMMARY}`;
const LIST_END = new RegExp(`^(?:${LIST_ENDS.join('|')}).*\n`, 'm');

export class Replies {
  rest = '';
  asked = [];

  // Takes lines whose replies come next.
  ask(lines) {
    this.asked.push(...lines);
  }

  add(text) {
    this.rest += text;
    const found = [];
    for (let end = this.end(); end > 0; end = this.end()) {
      found.push(this.rest.slice(0, end));
      this.rest = this.rest.slice(end);
      this.asked.shift();
    }
    return found;
  }

  // Where the next reply ends, 0 where it isn't whole.
  end() {
    const first = this.rest.indexOf('\n') + 1;
    if (!first || this.rest.startsWith(REFUSED)) return first;
    const [, look] = /^look (\w+)/.exec(this.asked[0] ?? '') ?? [];
    if (LISTS.includes(look)) return this.endOfList();
    if (look) return this.endOfLine(WHOLE.some((it) => this.rest.startsWith(it)) ? 1 : LOOKS[look] ?? 1);
    const last = this.rest.startsWith(REPORT) ? this.rest.indexOf(LAST_LINE) : 0;
    return last < 0 ? 0 : this.rest.indexOf('\n', last + 1) + 1;
  }

  // Where a list ends.
  endOfList() {
    const found = LIST_END.exec(this.rest);
    return found ? found.index + found[0].length : 0;
  }

  // Where so many lines end.
  endOfLine(count) {
    let end = 0;
    for (let i = 0; i < count; i++) {
      end = this.rest.indexOf('\n', end) + 1;
      if (!end) return 0;
    }
    return end;
  }
}
