// The variables of a program that are in scope at an instruction: their types, their places at a step, and their values as text.
import { AT, Dwarf, TAG, attempt, isBlock } from './dwarf.js';
import { Frames } from './frames.js';
import { Content, Elsewhere, Expression } from './location.js';
import { expressionAt, isWithin, rangesOf } from './ranges.js';
import { Unknown } from './reader.js';
import { sizeOf, typeName, typeOf } from './types.js';
import { OPTIMIZED_OUT, Values } from './values.js';

const SOMEWHERE = 'somewhere else';
const CHUNK = 256;  // bytes of memory that are asked for at once: a multiple of this, at a multiple of this
const MOST_ROWS = 300, MOST_DEPTH = 64;
const MOST_SCOPES = 10000;  // that are remembered
const BLOCKS = new Set([TAG.block, TAG.inlined, TAG.tryBlock, TAG.catchBlock]);
const VARIABLES = new Set([TAG.variable, TAG.parameter]);
const HIGHEST = 2 ** 32;

// Reads memory by chunks, each at most once: a function as `read` is, for one step.
function byChunks(read) {
  const known = new Map();
  const chunk = (begin) => {
    if (!known.has(begin)) known.set(begin, read(begin, CHUNK));
    return known.get(begin);
  };
  return async (address, length) => {
    const bytes = [], undefs = [], end = Math.min(address + length, HIGHEST);
    for (let begin = address - address % CHUNK; begin < end; begin += CHUNK) {
      const it = await chunk(begin), from = Math.max(address - begin, 0), to = Math.min(end - begin, CHUNK);
      bytes.push(...it.bytes.slice(from, to));
      undefs.push(...it.undefined.slice(from, to));
    }
    return { bytes, undefined: undefs };
  };
}

export class Variables {
  elf;
  functions = new Map();
  scopes = new Map();
  /** @type {Dwarf} */ read;
  /** @type {Frames} */ framesRead;

  constructor(elf) {
    this.elf = elf;
  }

  // Files are read once something is asked.
  get dwarf() { return this.read ??= new Dwarf(this.elf); }
  get frames() { return this.framesRead ??= new Frames(this.elf); }

  // Whether the file says anything of variables.
  get are() { return this.elf.section('.debug_info') !== undefined; }

  // Promises the variables in scope at an instruction, those of the innermost block first. `registers` are those of the step, each with
  // its `value` and its undefined bits, `undef`. `read(address, length)` promises the `bytes` there, and the bits of each that are
  // `undefined`, null where it is inaccessible. A row has the `name`, the `type`, the value as `text`, whether a bit of it is `undefined`,
  // and its `address`, null where it isn't in memory. Besides, it has the `parts` of the text, each with `how` its bits are known, the
  // `kind`, and the name of the function if that is `inlined`.
  async at(pc, registers, read) {
    const scope = this.scopeAt(pc);
    return scope ? this.rows(scope.variables, { pc, registers, read: byChunks(read), base: scope.base }) : [];
  }

  // Promises the variables of the file of an instruction that are there all the time.
  async globals(pc, registers, read) {
    const root = this.scopeAt(pc)?.base.unit.root;
    const found = (root?.children ?? []).filter((it) => it.tag === TAG.variable && it.fields.has(AT.location));
    return this.rows(found.map((entry) => ({ entry, kind: 'global', inlined: '' })), { pc, registers, read: byChunks(read) });
  }

  rows(variables, where) {
    return Promise.all(variables.slice(0, MOST_ROWS).map((it) => this.row(it, where)));
  }

  // ---- what is in scope

  // The function that has an instruction, with its unit. An assembler may say that a unit goes on further than the linker left it, so that
  // two have the instruction: then it is the function that begins last.
  functionAt(pc) {
    const begin = ({ ranges }) => Math.max(...ranges.map(([low]) => low).filter((low) => low <= pc));
    const units = this.dwarf.units.filter((it) => isWithin(attempt(() => rangesOf(it.root)) ?? [], pc));
    const found = units.flatMap((it) => attempt(() => this.functionsOf(it), []).filter(({ ranges }) => isWithin(ranges, pc)));
    return found.reduce((best, it) => (best && begin(best) >= begin(it) ? best : it), null);
  }

  // The same, and the variables in scope there.
  scopeAt(pc) {
    if (!this.scopes.has(pc)) {
      const found = this.functionAt(pc);
      if (this.scopes.size >= MOST_SCOPES) this.scopes.clear();
      this.scopes.set(pc, found && { base: found.entry, variables: attempt(() => inScope(found.entry, pc), []) });
    }
    return this.scopes.get(pc);
  }

  functionsOf(unit) {
    if (!this.functions.has(unit)) {
      const all = [...unit.read().entries.values()].filter((it) => it.tag === TAG.subprogram);
      this.functions.set(unit, all.map((entry) => ({ entry, ranges: attempt(() => rangesOf(entry)) ?? [] })));
    }
    return this.functions.get(unit);
  }

  // ---- what a variable has

  async row({ entry, kind, inlined }, where) {
    const type = typeOf(entry), called = attempt(() => typeName(type), '?');
    const row = { name: entry.unit.name(entry) ?? '?', type: called, kind, inlined, address: null };
    let parts;
    try {
      const content = await this.content(entry, type, where);
      parts = content && await this.shown(type, content, where.read);
      row.address = content?.address ?? null;
    } catch (fault) {
      if (!(fault instanceof Elsewhere || fault instanceof Unknown || fault instanceof RangeError)) throw fault;
      parts = [{ text: SOMEWHERE, how: 'elsewhere' }];
    }
    parts ??= [{ text: OPTIMIZED_OUT, how: 'lost' }];
    const isUndefined = parts.some(({ how }) => how === 'undefined' || how === 'inaccessible');
    return { ...row, text: parts.map((it) => it.text).join(''), parts, undefined: isUndefined };
  }

  async shown(type, content, read) {
    const nameAt = (address) => this.elf.nameAt(address), values = new Values({ read, nameAt });
    await values.show(type, content);
    return values.parts;
  }

  // What a variable has at a step, null where it isn't anywhere.
  async content(entry, type, where) {
    const fixed = entry.unit.found(entry, AT.constValue), { elf } = this;
    const expression = expressionAt(entry, AT.location, where.pc);
    if (!expression && fixed && !entry.fields.has(AT.location)) return constantOf(fixed, type, elf);
    if (!expression) return null;
    const pieces = await new Expression(elf, expression, this.context(entry.unit, where)).pieced();
    return pieces.length ? new Content(elf, pieces, where) : null;
  }

  context(unit, where) {
    const context = { registers: where.registers, read: where.read, addressOf: (index) => unit.address(index),
      frameAddress: () => this.frameAddress(where) };
    context.frameBase = () => this.frameBase(where, context);
    return context;
  }

  // The address from which a function's variables are counted.
  async frameBase({ base, pc }, context) {
    const expression = base && expressionAt(base, AT.frameBase, pc);
    if (!expression) throw new Elsewhere();
    const isOfNone = () => { throw new Elsewhere(); };
    return new Expression(this.elf, expression, { ...context, frameBase: isOfNone }).number();
  }

  // The address of the frame itself, as the rules of the instruction say.
  async frameAddress(where) {
    const rule = this.frames.ruleAt(where.pc);
    if (!rule) throw new Elsewhere();
    const isOfNone = () => { throw new Elsewhere(); };
    const context = { registers: where.registers, read: where.read, addressOf: isOfNone, frameAddress: isOfNone, frameBase: isOfNone };
    if (rule.expression) return new Expression(this.elf, rule.expression, context).number();
    const register = where.registers[rule.register];
    if (!register) throw new Elsewhere();
    return (register.value + rule.offset) >>> 0;
  }
}

// The variables of a function and of the blocks in it that have an instruction, the innermost first.
function inScope(base, pc) {
  const found = [];
  let blocks = [{ entry: base, inlined: '' }];
  for (let depth = 0; blocks.length && depth < MOST_DEPTH; depth++) {
    const inner = [], own = [];
    for (const { entry, inlined } of blocks) {
      own.push(...ownOf(entry, inlined));
      inner.push(...blocksIn(entry, inlined, pc));
    }
    found.unshift(...own);
    blocks = inner;
  }
  return found.slice(0, MOST_ROWS);
}

// What is in an entry; of a block that doesn't say where it is, what is in the block instead.
function partsOf(entry, depth = 0) {
  const isOpen = (it) => it.tag === TAG.block && depth < MOST_DEPTH && !rangesOf(it);
  return entry.children.flatMap((it) => (isOpen(it) ? partsOf(it, depth + 1) : [it]));
}

// The blocks in an entry that have an instruction. `inlined` is the inlined function of each.
function blocksIn(entry, inlined, pc) {
  const found = partsOf(entry).filter((it) => BLOCKS.has(it.tag) && isWithin(rangesOf(it) ?? [], pc));
  return found.map((it) => ({ entry: it, inlined: it.tag === TAG.inlined ? it.unit.name(it) ?? '?' : inlined }));
}

// The variables that an entry declares: its own, and those of what it is an instance of that it doesn't mention, which aren't anywhere.
function ownOf(entry, inlined) {
  const own = partsOf(entry).filter(isVariable);
  const origin = entry.unit.reference(entry, AT.origin);
  if (origin) {
    const known = new Set([...entry.children, ...partsOf(entry)].map((it) => originOf(it)).filter(Boolean));
    own.push(...allIn(origin.children.filter((it) => !known.has(it))));
  }
  return own.map((it) => ({ entry: it, inlined, kind: it.tag === TAG.parameter ? 'parameter' : 'local' }));
}

// The variables among entries, and in the blocks among them.
function allIn(entries) {
  const found = [];
  let left = entries;
  for (let depth = 0; left.length && depth < MOST_DEPTH; depth++) {
    found.push(...left.filter(isVariable));
    left = left.filter((it) => it.tag === TAG.block).flatMap((it) => it.children);
  }
  return found;
}

// Where a value needs neither registers nor memory.
const NO_MACHINE = { registers: [], read: null };

const originOf = (entry) => entry.unit.reference(entry, AT.origin);

function isVariable(entry) {
  return VARIABLES.has(entry.tag) && !entry.fields.has(AT.declaration) && entry.unit.name(entry) !== null;
}

// What a constant has.
function constantOf({ unit, field }, type, elf) {
  const size = sizeOf(type);
  if (!size || size > 8) throw new Elsewhere();
  if (isBlock(field)) {
    const { at, length } = field.value;
    return new Content(elf, [{ kind: 'bytes', begin: at, size: length, length: Infinity }], NO_MACHINE);
  }
  const value = typeof field.value === 'number' && Number.isSafeInteger(field.value) ? BigInt.asUintN(64, BigInt(field.value)) : null;
  if (value === null) throw new Elsewhere();
  const bytes = Array.from({ length: 8 }, (_, i) => ({ value: Number(value >> BigInt(8 * i) & 255n), undef: 0 }));
  return { address: null, bytes: async (offset, length) => bytes.slice(offset, offset + length) };
}

// A function that promises the variables in scope at an instruction, as `Variables.at` does.
export function variablesOf(elf) {
  const all = new Variables(elf);
  return (...given) => all.at(...given);
}
