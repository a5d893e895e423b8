// The fields that choose an instruction set, where heap and stack are, and the last step of a run.
import { $, $input, $select, element, say } from '../common/dom.js';
import { hexWord } from '../common/numbers.js';
import { USUAL_TARGET, givenOf, stackText, targetOf } from '../engine/targets.js';
import { ISAS } from '../facts.js';

const FIELDS = { heap: 'heap-region', stack: 'stack-region', furthest: 'limit' };
const NAMES = { heap: 'heap', stack: 'stack', furthest: 'steps up to' };

export class TargetPanel {
  given = null;

  // `choose` takes a part of a target, which isn't the one that is shown.
  constructor({ choose }) {
    $('isa').append(...ISAS.map((it) => element('option', { value: it }, it)));
    $('isa').addEventListener('change', () => choose({ isa: $select('isa').value }));
    $input('heap-region').placeholder = hexWord(USUAL_TARGET.heap);
    $input('stack-region').placeholder = stackText(USUAL_TARGET.stack);
    $input('limit').placeholder = `${USUAL_TARGET.furthest}`;
    $('regions-form').addEventListener('submit', (event) => {
      event.preventDefault();
      const given = this.read();
      if (!given) return;
      if (JSON.stringify(givenOf(given)) === this.given) this.fill(givenOf(given));
      else choose(given);
    });
  }

  // The regions and the last step that the fields say, null where one can't be used, which is said there.
  read() {
    const texts = Object.fromEntries(Object.entries(FIELDS).map(([name, id]) => [name, $input(id).value.trim()]));
    const { target: { heap, stack, furthest }, wrong } = targetOf(texts);
    this.tell(wrong);
    const [first] = Object.keys(wrong);
    if (first) $(FIELDS[first]).focus();
    return first ? null : { heap, stack, furthest };
  }

  // Says what is wrong in the fields.
  tell(wrong) {
    for (const [name, id] of Object.entries(FIELDS)) $(id).setAttribute('aria-invalid', `${name in wrong}`);
    say('regions-wrong', Object.values(wrong).join(' '));
    $('regions-wrong').hidden = !$('regions-wrong').textContent;
  }

  // Shows the target of what is open. What one has typed stays until that is another one.
  show(target) {
    $select('isa').value = target.isa;
    const given = givenOf(target), text = JSON.stringify(given);
    if (text !== this.given) this.fill(given);
    this.given = text;
  }

  fill(given) {
    const told = Object.entries(FIELDS).filter(([, id]) => given[id]);
    for (const id of Object.values(FIELDS)) $input(id).value = given[id] ?? '';
    say('regions-told', told.map(([name, id], at) => `${at ? ', ' : ': '}${NAMES[name]} ${given[id]}`).join(''));
    this.tell({});
  }
}
