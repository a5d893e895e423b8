// How many edits of a sweep break the run, as a sentence. It counts what the program's table has, also while that is written.
import { grouped } from '../common/numbers.js';

const CALLED = {
  bytes: { all: ['one-byte edit', 'one-byte edits'], flips: ['one-bit edit', 'one-bit edits'],
    edges: ['edge-value edit', 'edge-value edits'] },
  words: { skip: ['skipped instruction', 'skipped instructions'], flips: ['one-bit edit', 'one-bit edits'] },
  steps: { skip: ['skipped step', 'skipped steps'], registers: ['one-bit edit of a register', 'one-bit edits of a register'],
    pc: ['one-bit edit of pc', 'one-bit edits of pc'], zero: ['register set to 0', 'registers set to 0'],
    ones: ['register set to all ones', 'registers set to all ones'] },
};

// Up to which step the runs of a sweep were looked at, where the run that is swept goes on there: what is said is true up to it.
export function upTo({ asked, outcomes }) {
  return outcomes[0]?.startsWith('running') ? ` up to step ${grouped(asked.step)}` : '';
}

// `isGoing` says whether more edits are being tried; a sweep that is over and not whole was stopped.
export function counted(swept, outcomes, { isGoing }) {
  const { asked: { kind, values, name }, edits, isWhole } = swept, called = CALLED[kind][values];
  const where = name ? ` ${name.startsWith('step ') ? 'at' : 'of'} ${name}` : '';
  const until = upTo(swept), far = isWhole ? '' : isGoing ? ' tried so far' : ' tried before the stop';
  const all = `${isWhole ? '' : 'the '}${grouped(edits)} ${called[Number(edits !== 1)]}${where}${far}`;
  const some = (count, one, more) => `${count ? grouped(count) : 'none'} of ${all} ${count > 1 ? more : one}`;
  const { fresh, reached, goal } = outcomes, isClean = outcomes.at(0).isClean;
  const breaks = isClean ? ['breaks it', 'break it'] : ['adds an error, a leak or a stop', 'add an error, a leak or a stop'];
  if (!goal) return some(fresh, ...breaks) + until;
  const reach = some(reached, `reaches “${goal}”`, `reach “${goal}”`);
  return `${reach}, and ${fresh ? grouped(fresh) : 'none'} ${breaks[Number(fresh > 1)]}${until}`;
}
