// What is said of the file that is open, and what can be done about it: a heap that goes unseen, a run that is cut off, and what stands
// between a board's file and a checked run.
import { $, download, element, say } from '../common/dom.js';
import { grouped } from '../common/numbers.js';
import { Elf } from '../debuginfo/elf.js';
import { FURTHEST_STEP } from '../facts.js';
import { regionAdvice } from '../files/boards.js';
import { loadedToo } from '../files/start-file.js';

const FURTHER = 8;  // times as many steps as those that are looked at are offered at once

export class FileNotes {
  opening;
  tell;
  lines;
  patch;
  /** @type {?import('../files/opened.js').Opened} */ opened = null;

  // `opening` opens files again; `tell` takes a sentence and what is offered after it; `lines` gives the scenario as lines;
  // `patch` makes edits of code.
  constructor({ opening, tell, lines, patch }) {
    this.opening = opening;
    this.tell = tell;
    this.lines = lines;
    this.patch = patch;
    $('limit-more').addEventListener('click', () => opening.again({ furthest: this.further }));
  }

  // Shows what there is to say of what is open, nothing where nothing is.
  show(opened) {
    this.opened = opened;
    $('heap-told').hidden = !opened?.heap;
    $('board-told').hidden = !opened?.board;
    for (const it of ['limit-told', 'offers']) $(it).hidden = true;
    if (!opened) return;
    say('heap-told', opened.heap);
    this.showBoard(opened.board ?? { text: '', sets: [], command: '' });
    this.showOffers(opened.offers);
    this.showLimit(opened);
  }

  // A sentence, the instruction sets that are offered, and a command.
  showBoard({ text, sets, command }) {
    say('board-text', text);
    $('board-sets').replaceChildren(...sets.map((it) => element('button', { onclick: () => this.opening.again({ isa: it }) }, it)));
    say('board-more', sets.length || !text.endsWith(':') ? 'This command says all that is in the way:' : '');
    say('board-command', command);
  }

  showOffers(offers) {
    $('offers').replaceChildren(...offers.map((it) => element('li', {}, it.text, ' ',
      element('button', { onclick: () => this.take(it) }, it.label))));
    $('offers').hidden = !offers.length;
  }

  // Does what is offered for a file: edits its code, opens it again for another target, or a copy of it that loads more.
  async take({ change = null, segments = [], edits = null }) {
    if (edits) {
      this.patch(edits);
      return;
    }
    if (change) {
      await this.opening.again(change);
      return;
    }
    const { files, target } = this.opened, { name, bytes } = files.program, made = loadedToo(bytes, segments);
    const program = { name: `${name.replace(/\.elf$/, '')}.loaded.elf`, bytes: made };
    await this.opening.begin({ ...files, program }, { lines: this.lines(), target });
    const save = element('button', { onclick: () => download(program.name, made) }, 'Save it');
    if (this.opened?.files.program !== program) return;
    this.tell(`“${program.name}” is a copy of “${name}” that has these bytes at both addresses, and a link names the copy.`, [save]);
  }

  // The last step that is offered where a run goes on after the one that there is.
  get further() { return Math.min(FURTHEST_STEP, FURTHER * this.opened.target.furthest); }

  // Says where a run is cut off, and offers to go on.
  async showLimit(opened) {
    const { furthest } = opened.target, isCut = await opened.isCut();
    if (opened !== this.opened || !isCut) return;
    say('limit-text', `The run goes on after step ${grouped(furthest)}, where this page stops looking.`);
    say('limit-more', `Look up to step ${grouped(this.further)}`);
    $('limit-more').hidden = furthest === FURTHEST_STEP;
    $('limit-told').hidden = false;
  }

  // What to say of files that meet the region of heap or stack, and what is offered: a button that opens them with these elsewhere, and
  // the command for it.
  elsewhere(files, how) {
    const { bytes, name } = files.program, { text, target, label, more } = regionAdvice(new Elf(bytes), name, how.target);
    const button = target && element('button', { onclick: () => this.opening.begin(files, { ...how, target }) }, label);
    return { more: text, offered: [...(button ? [button, ' '] : []), more] };
  }
}
