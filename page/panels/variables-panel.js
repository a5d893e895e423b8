// The part of the page that shows the variables in scope where the run is, with those of the file where one asks for them.
import { $, $details, element, say } from '../common/dom.js';
import { hexWord } from '../common/numbers.js';

const HOW = { undefined: 'undefined', inaccessible: 'inaccessible', lost: 'quiet', elsewhere: 'quiet', '': '' };

// What was asked for is no longer wanted.
export class Stale extends Error {}

export class VariablesPanel {
  showMemory;
  fail;
  all = null;
  asked = null;
  at;

  // `show` has the memory at an address shown, and `fail` takes a fault.
  constructor({ show, fail }) {
    this.showMemory = show;
    this.fail = fail;
    $('globals').addEventListener('toggle', () => this.again());
  }

  // Shows the variables of a program from now on.
  open(all) {
    this.all = all;
    this.at = null;
    this.asked = null;
    for (const it of ['variable-rows', 'global-rows']) $(it).replaceChildren();
    say('variables-told', '');
  }

  // Shows what is in scope at an instruction, null where the run has ended.
  show(pc, registers, read) {
    this.at = { pc, registers, read };
    return this.again();
  }

  async again() {
    const asked = this.asked = Symbol('asked'), { all } = this;
    if (!all || !this.at) return;
    const { pc, registers, read } = this.at, isEnd = pc === null;
    try {
      const rows = isEnd ? [] : await all.at(pc, registers, read);
      const globals = isEnd || !$details('globals').open ? [] : await all.globals(pc, registers, read);
      if (asked !== this.asked) return;
      this.render('variable-rows', rows);
      this.render('global-rows', globals);
      say('variables-told', this.told(rows, isEnd));
    } catch (fault) {
      if (asked === this.asked && !(fault instanceof Stale)) this.fail(fault);
    }
  }

  told(rows, isEnd) {
    if (!this.all.are) return 'The program says nothing of its variables. Build it with -g to see them here.';
    if (isEnd) return 'The run has ended: go to a step before its end.';
    return rows.length ? '' : 'None is in scope here.';
  }

  // Shows rows, and in one row the names of those that have no value here.
  render(id, all) {
    const isLost = ({ parts }) => parts.length === 1 && parts[0].how === 'lost', rows = all.filter((it) => !isLost(it));
    const lost = [...new Set(all.filter(isLost).map(({ name }) => name))];
    const inlined = (it, i) => it.inlined && rows[i - 1]?.inlined !== it.inlined;
    $(id).parentElement.hidden = !all.length;
    $(id).replaceChildren(...rows.flatMap((it, i) => [...(inlined(it, i) ? [this.head(it.inlined)] : []),
      ...(!it.inlined && rows[i - 1]?.inlined ? [this.head('')] : []), this.row(it)]), ...(lost.length ? [this.lost(lost)] : []));
  }

  lost(names) {
    return element('tr', {}, element('th', { scope: 'row', className: 'quiet' }, 'optimized out'),
      element('td', { colSpan: 2, className: 'value quiet' }, names.join(', ')));
  }

  // A row above the variables of an inlined function, and one above those of the function itself after them.
  head(inlined) {
    const told = inlined ? `of ${inlined}, which is inlined here` : 'of the function';
    return element('tr', {}, element('td', { colSpan: 3, className: 'quiet' }, told));
  }

  row({ name, type, kind, address, parts }) {
    const told = address === null ? '' : `${name}: show its memory, at ${hexWord(address)}`;
    const shown = address === null ? name
      : element('button', { className: 'plain', title: told, 'aria-label': told, onclick: () => this.showMemory(address) }, name);
    return element('tr', {}, element('th', { scope: 'row' }, shown),
      element('td', { className: 'value' }, ...parts.flatMap((it) => part(it))),
      element('td', { className: 'quiet' }, kind === 'parameter' ? `${type}, a parameter` : type));
  }
}

// A part of a value, which says how its bits are known.
function part({ text, how, bits }) {
  if (!how) return [text];
  const known = how === 'undefined' ? `undefined${bits ? ` bits ${bits}` : ''}` : how === 'inaccessible' ? how : '';
  const made = element('span', { className: HOW[how], title: known }, text);
  return known ? [made, element('span', { className: 'unseen' }, ` (${known})`)] : [made];
}
