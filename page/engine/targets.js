// What a program runs on: an instruction set, where heap and stack are, and up to which step. A target is one value,
// `{ isa, heap, stack, furthest }`, and is never changed: the begin of the heap's region, the begin and the end of the stack's, and the
// last step of a session.
import { grouped, hexWord, listed, numberOf } from '../common/numbers.js';
import { FURTHEST_STEP, GREATEST_HEAP, HEAP_SIZE, HEAP_STEP, HEAP_WANTED, LEAST_HEAP, USUAL_HEAP } from '../facts.js';
import { ISAS, LAST_STEP, LEAST_STACK, STACK_STEP, STACK_WANTED, USUAL_STACK } from '../facts.js';
import { USUAL } from '../riscv/isa.js';

export const USUAL_TARGET = { isa: USUAL, heap: USUAL_HEAP, stack: USUAL_STACK, furthest: LAST_STEP };
const ADDRESSES = 2 ** 32;
// The parts of a target by the names of their options.
const PARTS = { isa: 'isa', 'heap-region': 'heap', 'stack-region': 'stack', limit: 'furthest' };
// A line of a text of a scenario that says for which target it is: a remark for `replaycheck talk`, with options.
const LINE = /^#(?: --(?:isa|heap-region|stack-region|limit) \S+)+$/m;

export const heapOf = ({ heap }) => [heap, heap + HEAP_SIZE];

/**
 * Whether two ranges of addresses, each its begin and its end, have one in common.
 * @param {number[]} one
 * @param {number[]} other
 */
export const meets = ([begin, end], [low, high]) => Math.max(begin, low) < Math.min(end, high);

export const stackText = (stack) => stack.map(hexWord).join('..');

/**
 * The addresses of a region in a sentence.
 * @param {number[]} region
 */
const inWords = ([begin, end]) => `${hexWord(begin)} to ${hexWord(end - 1)}`;
export const regionsInWords = (target) => `The heap has ${inWords(heapOf(target))}, and the stack ${inWords(target.stack)}.`;

// The regions that aren't the usual ones, by the names of their options.
function regionsOf({ heap, stack }) {
  return { ...(heap !== USUAL_HEAP && { 'heap-region': hexWord(heap) }),
    ...(stackText(stack) !== stackText(USUAL_STACK) && { 'stack-region': stackText(stack) }) };
}

// The same, and the last step of sessions.
export const givenOf = (target) => ({ ...regionsOf(target), ...(target.furthest !== LAST_STEP && { limit: `${target.furthest}` }) });

const optionsOf = (target) => Object.entries({ ...(target.isa !== USUAL && { isa: target.isa }), ...regionsOf(target) });
const typedOf = (options) => options.map(([name, value]) => `--${name} ${value}`);
// The options of the program, as its words and as one types them; those of the regions only.
export const targetWords = (target = USUAL_TARGET) => optionsOf(target).map(([name, value]) => `--${name}=${value}`);
export const typedOptions = (target) => typedOf(optionsOf(target));
export const isSameTarget = (one, other) => one.isa === other.isa && typedGiven(one).join() === typedGiven(other).join();
// The option of a session for its last step.
export const limitWords = ({ furthest } = USUAL_TARGET) => (furthest === LAST_STEP ? [] : [`--limit=${furthest}`]);

const typedGiven = (target) => typedOf(Object.entries(givenOf(target)));

// The lines by which a text says for which target it is.
export function targetLines(target) {
  return isSameTarget(target, USUAL_TARGET) ? [] : [['#', ...typedOf([['isa', target.isa]]), ...typedGiven(target)].join(' ')];
}

const isLimit = (step) => step !== null && 1 <= step && step <= FURTHEST_STEP;
const isHeap = (begin) => begin !== null && begin % HEAP_STEP === 0 && LEAST_HEAP <= begin && begin <= GREATEST_HEAP;

export function isStack(stack) {
  const [begin, end] = stack;
  return stack.length === 2 && !stack.includes(null) && stack.every((it) => it % STACK_STEP === 0) && begin + LEAST_STACK <= end
    && end < ADDRESSES;
}

// The target that texts say, those of regions as their options have them: an empty one is the usual. `wrong` has a sentence for each
// text that can't be used, by its name.
export function targetOf({ isa = USUAL, heap = '', stack = '', furthest = '' }) {
  const target = { isa, heap: heap ? numberOf(heap) : USUAL_HEAP, stack: stack ? stack.split('..').map(numberOf) : USUAL_STACK,
    furthest: furthest ? numberOf(furthest) : LAST_STEP };
  const wrong = {};
  if (!ISAS.includes(isa)) wrong.isa = `There is no instruction set “${isa}” here, but ${listed(ISAS, 'and')}.`;
  if (!isHeap(target.heap)) wrong.heap = `“${heap}” isn’t where a heap can begin: that is ${HEAP_WANTED}.`;
  if (!isStack(target.stack)) wrong.stack = `“${stack}” isn’t where a stack can be: that is ${STACK_WANTED}.`;
  if (!isLimit(target.furthest)) wrong.furthest = `“${furthest}” isn’t a last step: that is one from 1 to ${grouped(FURTHEST_STEP)}.`;
  if (!wrong.heap && !wrong.stack && meets(heapOf(target), target.stack)) wrong.stack = `Heap and stack overlap. ${regionsInWords(target)}`;
  return { target, wrong };
}

// The same of a text of a scenario, null where it doesn't say for which target it is.
export function targetIn(text) {
  const [line] = LINE.exec(text) ?? [];
  if (!line) return null;
  const options = new Map();
  for (const it of line.split(' --').slice(1)) options.set(it.split(' ')[0], it.split(' ')[1]);
  return targetBy(options);
}

// The same of options by their names; those that are left out are the usual ones.
export function targetBy(options) {
  return targetOf(Object.fromEntries(Object.entries(PARTS).map(([name, part]) => [part, options.get(name) ?? undefined])));
}
