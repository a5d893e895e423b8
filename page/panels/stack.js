// The calls that the program is in at the step that is shown, the newest first.
import { $, element, say } from '../common/dom.js';
import { hexWord, many } from '../common/numbers.js';

const FIRST = 32;  // frames that are shown while the step is dragged

// What a step has done with the calls, by what they are before it and after it; `functionOf` gives the function of an address.
export function moved(before, now, functionOf) {
  if (now.length !== before.length) return now.length > before.length ? 'called' : 'returned to';
  return functionOf(now[0]) === functionOf(before[0]) ? '' : 'jumped to';
}

export class Stack {
  nameOf;
  lineOf;
  visit;
  frames = [];
  count = 0;

  // `nameOf` and `lineOf` tell the function and the source line of an address, `visit` shows its code.
  constructor({ nameOf, lineOf, visit }) {
    this.nameOf = nameOf;
    this.lineOf = lineOf;
    this.visit = visit;
  }

  clear() {
    this.frames = [];
    this.count = 0;
    $('calls').replaceChildren();
    say('calls-told', '');
  }

  // Shows the newest frames. The rest, and what has changed, come when the step rests.
  show(frames) {
    this.frames = frames;
    say('calls-told', frames.length > 1 ? `in ${many(frames.length - 1, 'call')}` : 'in no call');
    this.render(FIRST);
  }

  // Shows all frames, and in which step the newest one came to be here.
  rest(how, step) {
    if (this.frames.length > FIRST) this.render(Infinity);
    if (how) $('calls').firstElementChild?.append(element('strong', {}, ` ${how} in step ${step}`));
  }

  // Brings rows in line with the frames: those that are as they were stay, so that none loses the focus.
  render(most) {
    const rows = [...$('calls').querySelectorAll('li')], shown = this.frames.slice(0, most);
    shown.forEach((address, index) => {
      const told = this.told(address, index), row = rows[index];
      if (row?.dataset.told === told && index) return;
      const made = this.row(address, told), hasFocus = row?.contains(document.activeElement);
      if (row) row.replaceWith(made);
      else $('calls').append(made);
      if (hasFocus) made.querySelector('button').focus();
    });
    for (const it of rows.slice(shown.length)) it.remove();
  }

  told(address, index) {
    const line = this.lineOf(address);
    return `${index ? 'by' : 'at'} ${this.nameOf(address)} ${line ? `(${line}) ` : ''}${hexWord(address)}`;
  }

  row(address, told) {
    const made = element('li', {}, element('button', { onclick: () => this.visit(address) }, told));
    made.dataset.told = told;
    return made;
  }
}
