// The edits that stand, as chips and as lines, and the forms that make some.
import { $, $area, $button, $details, $input, $select, download, element, focused, say } from '../common/dom.js';
import { many, numberOf } from '../common/numbers.js';
import { OPTIONS, editsOf } from '../engine/scenario.js';

const SHOWN = ['definite', 'indirect', 'possible', 'reachable'];
const MOST_CHIPS = 200;

// The boxes that choose which leaks are listed.
const leakBoxes = () => [...$('option-form').querySelectorAll('input')].filter((it) => it.name === 'show');

export class Edits {
  edit;
  use;
  refuse;
  tell;
  link;
  text;
  scenario;

  // `edit` takes a scenario, and `clear` takes all edits off; `use` takes the lines of a text, `refuse` and `tell` a sentence;
  // `link` promises the page's address with the scenario, and `text` gives its lines.
  constructor({ edit, clear, use, refuse, tell, link, text }) {
    this.edit = edit;
    this.use = use;
    this.refuse = refuse;
    this.tell = tell;
    this.link = link;
    this.text = text;
    $('none').addEventListener('click', clear);
    $('mark-form').addEventListener('submit', (event) => this.submit(event, () => this.mark()));
    $('option-form').addEventListener('submit', (event) => this.submit(event, () => this.options()));
    $('append-form').addEventListener('submit', (event) => this.submit(event, () => this.append()));
    $('cut').addEventListener('click', () => this.edit(this.scenario.withCut()));
    $('use-lines').addEventListener('click', () => this.use($area('lines').value));
    $('copy-lines').addEventListener('click', () => this.copy($area('lines').value, 'The lines are copied.'));
    $('copy-link').addEventListener('click', async () => this.copy(await this.link(), 'The link is copied.'));
    $('save-lines').addEventListener('click', () => this.save());
  }

  submit(event, does) {
    event.preventDefault();
    does();
  }

  show(scenario, step) {
    if (document.activeElement !== $('lines')) $area('lines').value = this.text();
    if (!$('mark-form').contains(document.activeElement)) $input('mark-step').value = `${step}`;
    if (scenario === this.scenario) return;
    this.scenario = scenario;
    const edits = editsOf(scenario);
    say('edits-told', edits.length ? many(edits.length, 'edit') : 'none');
    $button('none').disabled = !edits.length;
    const held = [...$('chips').querySelectorAll('button')].findIndex((it) => it === focused());
    $('chips').replaceChildren(...edits.slice(0, MOST_CHIPS).map((it) => this.chip(it)));
    if (held >= 0) ($('chips').querySelectorAll('button')[Math.min(held, edits.length - 1)] ?? $('bytes')).focus();
    if (!$('option-form').contains(document.activeElement)) this.showOptions();
  }

  chip({ label, lines, without }) {
    const title = lines.slice(0, 4).join('\n');
    return element('li', {}, label,
      element('button', { onclick: () => this.edit(without), 'aria-label': `take off ${label}`, title }, '✕'));
  }

  showOptions() {
    const value = (name) => this.scenario.options.get(name) ?? OPTIONS[name];
    for (const name of ['redzone', 'queue', 'callers']) $input(`option-${name}`).value = value(name);
    const kinds = value('show').split(',');
    for (const it of leakBoxes()) it.checked = kinds.includes(it.value) || kinds.includes('all');
  }

  options() {
    let scenario = this.scenario;
    for (const name of ['redzone', 'queue', 'callers']) {
      scenario = scenario.withOption(name, $input(`option-${name}`).value || OPTIONS[name]);
    }
    const kinds = SHOWN.filter((kind) => leakBoxes().some((it) => it.value === kind && it.checked));
    this.edit(scenario.withOption('show', kinds.length ? kinds.join(',') : 'none'));
  }

  mark() {
    const text = $input('mark-at').value.trim(), at = numberOf(text);
    if (at === null) return this.refuse(`An address is a number such as 0x7fffffc7, and not “${text}”.`);
    const [step, length] = ['mark-step', 'mark-length'].map((it) => Number($input(it).value));
    return this.edit(this.scenario.withMark({ step, at, length, kind: $select('mark-kind').value }));
  }

  append() {
    const text = $input('append-value').value.trim(), value = numberOf(text);
    if (value === null || value > 255) return this.refuse(`A byte is a number from 0 to 255, such as 0x41, and not “${text}”.`);
    return this.edit(this.scenario.withAppended(value));
  }

  async copy(text, told) {
    try {
      await navigator.clipboard.writeText(text);
      this.tell(told);
    } catch {
      $details('lines-part').open = true;
      $area('lines').value = text;
      $area('lines').select();
      this.refuse('The browser doesn’t let this page copy: the text is selected in the field, so copy it from there.');
    }
  }

  save() {
    download('scenario.session', $area('lines').value, 'text/plain');
  }
}
