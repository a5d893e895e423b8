// What is worst in a report, and where it is: the error or leak that one wants to see first, with the frame that is the program's own.
import { BADNESS, HEAP_NAMES } from '../facts.js';

// How bad an error is by its text, or a leak by its kind.
const badnessOf = ({ text, kind }) => {
  const told = kind === undefined ? text : `${kind} at`;
  return Number(BADNESS.find(([begin]) => told.startsWith(`${begin}`))?.[1] ?? 0);
};

// The worst of some groups of a report, the first of those that are as bad; null where there are none.
export function worstOf(groups) {
  return groups.reduce((worst, it) => (!worst || badnessOf(it) > badnessOf(worst) ? it : worst), null);
}

// The first frame of a trace that isn't the heap's and has a source line, or else isn't the heap's: where the program did it. Undefined
// where there is no trace.
export function ownFrame(trace, lineOf) {
  const own = trace.filter((it) => !HEAP_NAMES.includes(it.name));
  return own.find((it) => lineOf(it.address)) ?? own[0] ?? trace[0];
}

// What a report says of lines of sources: each error and leak at the line of its own frame.
export function messagesOf(groups, lineOf) {
  const found = groups.map(({ text, trace, isError }) => ({ text, isError, address: ownFrame(trace, lineOf)?.address }));
  return found.filter((it) => it.address !== undefined);
}

// Where a group is, such as ` in set_name, station.c:34`; empty where that isn't known.
export function placeOf({ trace }, lineOf) {
  const frame = ownFrame(trace, lineOf);
  if (!frame) return '';
  const line = lineOf(frame.address), name = frame.name === '???' ? '' : frame.name;
  const place = [name, line].filter(Boolean).join(', ');
  return place && ` in ${place}`;
}
