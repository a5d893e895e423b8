// Loads of devices in a run: where they are, and the edits that have each give all ones, so that a loop ends that waits until a bit is set.
import { grouped, hexWord, listed, many } from '../common/numbers.js';
import { DEVICES, OPCODES } from '../facts.js';
import { HALF, WORD, lengthOf } from '../riscv/isa.js';

// What is known of devices: their addresses, and their names.
export const KNOWN_DEVICES = DEVICES.map(([first, size, name]) => {
  const begin = Number(first);
  return { begin, end: begin + Number(size), name: `${name}` };
});
const NOTE = /^Address (0x[0-9a-f]{8}) is not stack'd/;
const READ = /^Invalid read /;
const ALL_ONES = { [WORD]: 0xfff00013, [HALF]: 0x507d };  // `li rd, -1` of either length, with rd as 0
const SHORT_LOAD = 0x4000, SHORT_KIND = 0xe003;  // `c.lw`, and the bits that say so
const MOST_PLACES = 3;  // that are named

// The device at whose address an error of a report's group is, with that address; undefined where there is none.
export function deviceAt({ note }) {
  const address = Number(NOTE.exec(note ?? '')?.[1] ?? NaN);
  const found = KNOWN_DEVICES.find(({ begin, end }) => begin <= address && address < end);
  return found && { address, name: found.name };
}

// The edit by which a load gives all ones: where, the word or the half, and its length; null where no load is there that it can replace.
function answered(elf, isa, at) {
  const half = elf.loaded(at, HALF), length = half === null ? HALF : lengthOf(isa, half), word = elf.loaded(at, length);
  if (word === null) return null;
  const isLoad = length === WORD ? (word & 0x7f) === OPCODES.load : (word & SHORT_KIND) === SHORT_LOAD;
  const to = length === WORD ? word >>> 7 & 31 : (word >>> 2 & 7) + 8;
  return isLoad && to ? { at, value: (ALL_ONES[length] | to << 7) >>> 0, length } : null;
}

// What is offered for a run that has errors at loads of devices: what it is, a button's label, and the edits; null where there are none.
export function polledOffer({ elf, target, lineOf }, report) {
  const reads = report.groups.filter((it) => it.isError && READ.test(it.text) && it.trace.length).flatMap((group) => {
    const device = deviceAt(group), edit = device && answered(elf, target.isa, group.trace[0].address);
    return edit ? [{ ...device, edit, place: lineOf(edit.at) ?? hexWord(edit.at) }] : [];
  });
  if (!reads.length) return null;
  const edits = [...new Map(reads.map(({ edit }) => [edit.at, edit])).values()], places = [...new Set(reads.map((it) => it.place))];
  const where = places.length > MOST_PLACES ? `${grouped(places.length)} places` : listed(places, 'and');
  const [{ address, name }] = reads, isRunning = report.state.startsWith('running');
  const far = isRunning ? `, and the run doesn’t end within ${many(report.step, 'step')}` : '';
  return { text: `No device answers ${many(edits.length, 'load')}, at ${where}: at ${hexWord(address)} a board has one (${name})${far}. `
    + 'A loop that waits until a bit of it is set ends if each of its loads gives all ones.', label: 'Answer with all ones', edits };
}
