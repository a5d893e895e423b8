// What a recording has, edit by edit. Edit 0 is the unedited run.

// The kinds of outcomes, the worst first.
const KINDS = ['g', 'n1', 'n2', 'n3', 'n4', 'n5', 'n6', 'n7', 'n8', 'n9', 'o1', 'o', 'o0'];

// The numbers of runs: of each run its first number, how many there are, and by how much one is greater than the one before.
function numbersOf(runs) {
  const found = [];
  for (let at = 0; at < runs.length; at += 3) {
    for (let i = 0; i < runs[at + 1]; i++) found.push(runs[at] + i * runs[at + 2]);
  }
  return found;
}

class Recorded {
  constructor(data) {
    this.data = data;
    this.panel = numbersOf(data.edits.panel);
    this.column = numbersOf(data.edits.column);
    this.row = numbersOf(data.edits.row);
    this.form = numbersOf(data.edits.form);
    this.outcomes = numbersOf(data.edits.outcome);
    this.reports = numbersOf(data.report);
    this.outputs = numbersOf(data.output);
    this.count = this.outcomes.length;
    this.cells = data.panels.map(() => new Map());
    for (let edit = 1; edit < this.count; edit++) {
      const cells = this.cells[this.panel[edit]], key = this.key(this.panel[edit], this.column[edit], this.row[edit]);
      if (cells.has(key)) cells.get(key).push(edit);
      else cells.set(key, [edit]);
    }
    for (const cells of this.cells) cells.forEach((edits) => edits.sort((one, other) => this.rank(one) - this.rank(other) || one - other));
  }

  key(panel, column, row) {
    return column * this.data.panels[panel].rows.length + row;
  }

  // The edits of a cell, the worst first.
  at(panel, column, row) {
    return this.cells[panel].get(this.key(panel, column, row)) ?? [];
  }

  outcome(edit) {
    return this.data.outcomes[this.outcomes[edit]];
  }

  rank(edit) {
    return KINDS.indexOf(this.outcome(edit).kind);
  }

  // What is new in an edit's outcome, or else all that it has.
  found(edit) {
    const { has, new: news } = this.outcome(edit);
    return (news.length ? news : has).map((it) => this.data.found[it]);
  }

  // The line of a session that makes an edit.
  line(edit) {
    const name = edit ? this.data.panels[this.panel[edit]].columns[this.column[edit]] : '';
    return edit ? this.data.forms[this.form[edit]].replace('{0}', name).replace('{1}', `${Number(name) + 1}`) : '';
  }

  // The edit that a line makes; 0 if the file doesn't have it.
  find(line) {
    for (let edit = 1; edit < this.count; edit++) if (this.line(edit) === line) return edit;
    return 0;
  }

  // The lines of an edit's report; null if the file doesn't have it.
  report(edit) {
    const number = this.reports[edit];
    return number ? numbersOf(this.data.reports[number - 1]).map((it) => this.data.lines[it]) : null;
  }

  // The first bytes of what a run wrote, a character each; null if the file doesn't have them.
  output(edit) {
    const number = this.outputs[edit];
    if (!number) return null;
    const [before, after, between] = this.data.outputs[number - 1], whole = this.data.unedited;
    return whole.slice(0, before) + between + whole.slice(whole.length - after);
  }
}

// Bytes as text: a line for each newline, and what isn't printable as \x07.
function shownBytes(text) {
  return [...text].map((it) => {
    const code = it.charCodeAt(0);
    return it === '\n' || code > 31 && code < 127 ? it : `\\x${code.toString(16).padStart(2, '0')}`;
  }).join('');
}

// What a report says of an error's address: the lines after the error's own trace. That of a bad jump begins where it went, which an
// outcome leaves out.
function noteOf(report, found) {
  const first = found.text.startsWith('Jump ') ? 2 : 1, addressOf = (line) => line?.slice(line.indexOf('0x'));
  const begin = report.findIndex((line, at) => line.endsWith(`: ${found.text}`)
    && found.trace.every((frame, i) => addressOf(report[at + first + i]) === addressOf(frame)));
  const lines = begin < 0 ? [] : report.slice(begin + first + found.trace.length);
  if (!lines[0]?.startsWith(' Address ')) return { text: '', trace: [] };
  const end = lines.findIndex((line, at) => at > 0 && !line.startsWith('   '));
  return { text: lines[0].trim(), trace: lines.slice(1, end) };
}
