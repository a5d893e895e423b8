// The tabs below the first screen, of which one is open: the one of the last visit, of a link, or of the part to which the page leads.
import { $, $button } from '../common/dom.js';
import { Kept } from '../files/kept.js';

const NAMES = ['report', 'code', 'calls', 'variables', 'registers', 'memory', 'blocks', 'options'];
const [FIRST] = NAMES;

export class Tabs {
  opens;
  kept = new Kept('replaycheck tab');
  now;

  // `opens` is told the name of each tab that is opened.
  constructor({ opens }) {
    this.opens = opens;
    for (const name of NAMES) $(`${name}-tab`).addEventListener('click', () => this.open(name));
    $('tabs').addEventListener('keydown', (event) => this.key(event));
    this.show(NAMES.find((name) => name === this.kept.text) ?? FIRST);
  }

  // The name that a link has of the tab that is open, null for the first one.
  get named() { return this.now === FIRST ? null : this.now; }

  // Opens a tab by its name, the first one without a name that there is. What had the focus in another one gives it to the tab.
  open(name) {
    const hadFocus = $(`${this.now}-panel`).contains(document.activeElement), was = this.now;
    this.show(NAMES.includes(name) ? name : FIRST);
    if (hadFocus && this.now !== was) $(`${this.now}-tab`).focus();
    this.kept.keep(this.named);
    this.opens(this.now);
  }

  show(now) {
    this.now = now;
    $('state-part').dataset.tab = now;
    for (const name of NAMES) {
      const isOpen = name === now, tab = $button(`${name}-tab`);
      tab.setAttribute('aria-selected', `${isOpen}`);
      tab.tabIndex = isOpen ? 0 : -1;
      $(`${name}-panel`).hidden = !isOpen;
    }
  }

  key(event) {
    if (event.ctrlKey || event.altKey || event.metaKey || event.shiftKey) return;
    const at = NAMES.indexOf(this.now), last = NAMES.length - 1;
    const places = { ArrowLeft: at ? at - 1 : last, ArrowRight: at < last ? at + 1 : 0, Home: 0, End: last };
    if (!(event.key in places)) return;
    this.open(NAMES[places[event.key]]);
    $(`${this.now}-tab`).focus();
    event.preventDefault();
  }
}
