// The registers at the step that is shown. One is picked: it is set, its bits are turned, and it is asked for.
import { $, $button, $input, element, focused, say } from '../common/dom.js';
import { grouped, hexWord, numberOf } from '../common/numbers.js';
import { flipLine, setLine } from '../engine/scenario.js';
import { REGISTERS } from '../facts.js';

const WORD = 32, GROUP = 8;  // bits of a register, and of those that stand together
const FIRST = 10;  // the register that is picked first: a0

export class Registers {
  alter;
  refuse;
  picked = FIRST;
  seen = null;
  step = 0;
  changed = new Set();
  buttons;

  // `alter` takes a line that alters the run at its step, `refuse` a sentence; `ask` takes a question about a register.
  constructor({ alter, refuse, ask }) {
    this.alter = alter;
    this.refuse = refuse;
    $('register-form').addEventListener('submit', (event) => {
      event.preventDefault();
      this.set();
    });
    for (const it of ['wrote', 'since']) $(`register-${it}`).addEventListener('click', () => ask(it, { register: this.picked }));
  }

  clear() {
    this.seen = null;
    for (const it of ['registers', 'bits']) $(it).replaceChildren();
  }

  // Shows what registers are before a step. What has changed is marked later.
  show(seen, step) {
    this.seen = seen;
    this.step = step;
    this.changed = new Set();
    if (!$('registers').childElementCount) this.build();
    REGISTERS.forEach((_, number) => number && this.update(number));
    this.renderPicked();
  }

  // Marks registers by their numbers.
  mark(changed) {
    const were = this.changed;
    this.changed = changed;
    for (const number of new Set([...were, ...changed])) this.update(number);
  }

  build() {
    this.buttons = REGISTERS.map((name, number) => element('button', { onclick: () => this.pick(number) },
      element('span', { className: 'name' }, name), ' ', element('span', { className: 'digits' })));
    $('registers').replaceChildren(...this.buttons.slice(1).map((it) => element('li', {}, it)));
  }

  update(number) {
    const { value, undef } = this.seen.registers[number], button = this.buttons[number];
    const isChanged = this.changed.has(number), isPicked = number === this.picked;
    const known = undef ? `, undefined bits ${hexWord(undef)}` : '';
    const since = isChanged ? `, changed since step ${grouped(this.step - 1)}` : '';
    const told = `${REGISTERS[number]}: ${hexWord(value)}${known}${since}`;
    if (button.title !== told) {
      Object.assign(button, { title: told, ariaLabel: told });
      button.lastElementChild.replaceChildren(...digits(value, undef));
    }
    button.lastElementChild.classList.toggle('changed', isChanged);
    button.classList.toggle('here', isPicked);
    button.setAttribute('aria-pressed', isPicked);
  }

  pick(number) {
    const before = this.picked;
    this.picked = number;
    for (const it of [before, number]) this.update(it);
    this.renderPicked();
    $('register-value').focus();
    $input('register-value').select();
  }

  renderPicked() {
    const { runs, registers } = this.seen, { value, undef } = registers[this.picked];
    say('register-name', REGISTERS[this.picked]);
    for (const [id, number] of [['register-value', value], ['register-undef', 0]]) {
      if (document.activeElement !== $(id)) $input(id).value = hexWord(number);
    }
    for (const it of $('register-form').querySelectorAll('input')) it.disabled = !runs;
    for (const it of $('register-form').querySelectorAll('button')) it.disabled = !runs;
    $button('register-wrote').disabled = false;
    $button('register-since').disabled = !undef;
    const groups = Array.from({ length: WORD / GROUP }, (_, i) => WORD - GROUP * (i + 1));
    if (!$('bits').childElementCount) {
      $('bits').replaceChildren(...groups.map((low) => element('span', {},
        ...Array.from({ length: GROUP }, (_, i) => this.bit(low + GROUP - 1 - i)))));
    }
    [...$('bits').querySelectorAll('button')].forEach((it, i) => this.updateBit(it, WORD - 1 - i));
  }

  bit(bit) {
    const turn = () => this.alter(flipLine(this.step, `x${this.picked}`, (1 << bit) >>> 0));
    return element('button', { type: 'button', onclick: turn });
  }

  updateBit(button, bit) {
    const { value, undef } = this.seen.registers[this.picked];
    const one = value >>> bit & 1, isUndefined = undef >>> bit & 1;
    const told = `turn bit ${bit} of ${REGISTERS[this.picked]}, which is ${one}${isUndefined ? ' and undefined' : ''}`;
    if (button.disabled === this.seen.runs) button.disabled = !this.seen.runs;
    if (button.title === told) return;
    Object.assign(button, { className: isUndefined ? 'undefined' : '', title: told, ariaLabel: told, textContent: String(one) });
  }

  set() {
    const [value, undef] = ['register-value', 'register-undef'].map((it) => $input(it).value.trim());
    const wrong = [value, undef].find((it) => numberOf(it) === null);
    if (wrong !== undefined) {
      this.refuse(`A register has a number such as 0x00000005, and not “${wrong}”.`);
      return;
    }
    focused()?.blur();
    this.alter(setLine(this.step, `x${this.picked}`, numberOf(value), numberOf(undef)));
  }
}

// The digits of a word, each of which tells whether it has an undefined bit.
function digits(value, undef) {
  const [shown, unknown] = [value, undef].map((it) => it.toString(16).padStart(8, '0'));
  return [...shown].map((it, i) => (unknown[i] === '0' ? it : element('span', { className: 'undefined' }, it)));
}
