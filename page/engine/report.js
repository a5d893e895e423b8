// A report of the program, read into its parts, and compared with another one. It is shown as it is, and nothing is computed.
const FRAME = /^ {3}(?:at|by) (0x[0-9a-f]{8}): (.*)$/;
const ERROR = /^error (\d+): (.*)$/;
const LEAK = /^leak (\d+) bytes in (\d+) blocks are (.*)$/;
const NOTE = /^ Address 0x[0-9a-f]{8} is /;
const SUM = /^([a-z ]+): (\d+) bytes in (\d+) blocks$/;
const SUMMARY = /^ERROR SUMMARY: (\d+) errors from (\d+) contexts \(suppressed: (\d+) from (\d+)\)$/;

export const frameOf = (line) => {
  const found = FRAME.exec(line);
  return found && { address: Number(found[1]), name: found[2] };
};

// An error or a leak: its first line, its trace, and for an error what is said of an address, with the trace of the block.
function groupOf(lines) {
  const error = ERROR.exec(lines[0]), leak = LEAK.exec(lines[0]);
  const group = { isError: Boolean(error), lines, trace: [], note: null, blockTrace: [] };
  Object.assign(group, error ? { count: Number(error[1]), text: error[2] }
    : { count: Number(leak[2]), kind: leak[3], text: `${leak[1]} bytes in ${leak[2]} blocks are ${leak[3]}` });
  for (const line of lines.slice(1)) {
    if (NOTE.test(line)) group.note = line.trim();
    else (group.note ? group.blockTrace : group.trace).push(frameOf(line));
  }
  const trace = group.trace.map((it) => `${it.address}`).join();
  group.key = `${error ? group.text : `leak ${group.kind}`} ${trace}`;
  return group;
}

export function parseReport(text) {
  const lines = text.trimEnd().split('\n');
  const [step, state, input, output] = lines.slice(0, 4).map((it) => it.slice(it.indexOf(' ') + 1));
  const report = { text, step: Number(step), state, written: Number(output), groups: [], sums: {} };
  report.read = Number(input.split(' of ')[0]);
  for (let at = 4; at < lines.length;) {
    let end = at + 1;
    while (end < lines.length && lines[end].startsWith(' ')) end++;
    const sum = SUM.exec(lines[at]), summary = SUMMARY.exec(lines[at]);
    if (summary) [report.errors, report.contexts, report.suppressed] = summary.slice(1).map(Number);
    else if (sum) report.sums[sum[1]] = { bytes: Number(sum[2]), blocks: Number(sum[3]) };
    else report.groups.push(groupOf(lines.slice(at, end)));
    at = end;
  }
  return report;
}

// The groups of a report beside those of the unedited run: new ones first, then those of both, then those that are gone.
export function compared(report, unedited) {
  const before = new Map(unedited.groups.map((it) => [it.key, it]));
  const now = new Set(report.groups.map((it) => it.key));
  const told = report.groups.map((group) => {
    const was = before.get(group.key);
    return { group, was, how: was ? (was.lines[0] === group.lines[0] ? 'same' : 'changed') : 'new' };
  });
  const gone = unedited.groups.filter((it) => !now.has(it.key)).map((group) => ({ group, was: group, how: 'gone' }));
  const rank = { new: 0, changed: 1, same: 2, gone: 3 };
  return [...told, ...gone].sort((a, b) => rank[a.how] - rank[b.how] || b.group.isError - a.group.isError);
}

// The state's name, and the address that it tells.
export function stateOf(report) {
  const [name, ...rest] = report.state.split(' ');
  const address = /0x[0-9a-f]{8}$/.exec(report.state);
  return { name, rest: rest.join(' '), address: address ? Number(address[0]) : null };
}

// The line that suppresses a group: its kind, what that takes, and its functions from the error outwards.
export function suppressionOf(group, kinds) {
  const frames = group.trace.map((it) => (it.name === '???' ? 'obj:*' : `fun:${it.name}`));
  if (!group.isError) return ['Leak', `match-leak-kinds:${kinds.leaks[group.kind]}`, ...frames].join(' ');
  const [kind, parameter] = kindOf(group.text, kinds.errors);
  return [kind, ...(kind === 'Param' ? [parameter] : []), ...frames].join(' ');
}

function kindOf(text, errors) {
  for (const [pattern, name] of errors) {
    const found = new RegExp(`^(?:${pattern})$`).exec(text);
    if (found) return [name === 'Addr' ? name + found[1] : name, found[1]];
  }
  return ['?'];
}
