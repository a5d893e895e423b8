// The report in place: what is new against the unedited run first, with source lines behind the frames.
import { $, element, say } from '../common/dom.js';
import { grouped, hexWord, many } from '../common/numbers.js';
import { compared, suppressionOf } from '../engine/report.js';

const BADGES = { new: 'new', changed: 'changed', gone: 'gone' };
const MOST_GROUPS = 200;

export class ReportPanel {
  lineOf;
  visit;
  suppress;
  kinds;
  groups;

  // `lineOf` tells the source line of an address; `visit` shows its code; `suppress` takes a suppression's text.
  constructor({ lineOf, visit, suppress, kinds }) {
    this.lineOf = lineOf;
    this.visit = visit;
    this.suppress = suppress;
    this.kinds = kinds;
  }

  // `where` tells where in the run the reports are, its own and that of the unedited run.
  show(report, unedited, where) {
    const groups = this.groups = compared(report, unedited);
    const hidden = groups.length - MOST_GROUPS;
    $('report').replaceChildren(
      ...(groups.length ? [] : [element('p', {}, 'No errors, and no leaks that are listed.')]),
      ...groups.slice(0, MOST_GROUPS).map((it) => this.group(it)),
      ...(hidden > 0 ? [element('p', { className: 'quiet' }, `${many(hidden, 'more group')} in the text below`)] : []),
      this.sums(report, unedited));
    say('report-text', report.text);
    say('report-told', where);
  }

  group({ group, how, was }) {
    const times = group.isError && group.count > 1 ? ` (${grouped(group.count)} times)` : '';
    const before = how === 'changed' && was.isError ? `, ${grouped(was.count)} unedited` : '';
    const badge = BADGES[how] ? [element('span', { className: 'badge' }, BADGES[how])] : [];
    const what = element('strong', { className: 'what' }, group.text);
    const parts = [element('p', {}, ...badge, what, times + before), this.frames(group.trace)];
    if (group.note) parts.push(element('p', {}, group.note), this.frames(group.blockTrace));
    if (how !== 'gone') {
      const text = suppressionOf(group, this.kinds);
      const button = { onclick: () => this.suppress(text), 'aria-label': `suppress ${group.text}` };
      parts.push(element('p', {}, element('button', button, 'Suppress')));
    }
    return element('article', { className: `group ${how}` }, ...parts);
  }

  frames(trace) {
    return element('ol', { className: 'frames' }, ...trace.map((frame, index) => {
      const line = this.lineOf(frame.address);
      const told = `${index ? 'by' : 'at'} ${frame.name} ${line ? `(${line})` : ''}`;
      return element('li', {},
        element('button', { onclick: () => this.visit(frame.address) }, `${told} ${hexWord(frame.address)}`));
    }));
  }

  sums(report, unedited) {
    const rows = Object.entries(report.sums).map(([name, { bytes, blocks }]) => {
      const was = unedited.sums[name];
      const differs = was.bytes !== bytes || was.blocks !== blocks;
      const before = differs ? `was ${many(was.bytes, 'byte')} in ${many(was.blocks, 'block')}` : '';
      return element('tr', { className: bytes ? '' : 'zero' }, element('th', { scope: 'row' }, name),
        element('td', {}, `${many(bytes, 'byte')} in ${many(blocks, 'block')}`),
        element('td', { className: 'quiet' }, before));
    });
    const written = unedited.written === report.written ? '' : `was ${many(unedited.written, 'byte')}`;
    rows.push(element('tr', {}, element('th', { scope: 'row' }, 'output'), element('td', {}, many(report.written, 'byte')),
      element('td', { className: 'quiet' }, written)));
    const caption = element('caption', { className: 'unseen' }, 'blocks that are left, and output');
    return element('table', { className: 'sums' }, caption, element('tbody', {}, ...rows));
  }
}
