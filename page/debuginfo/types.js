// Types of debugging information: what they are called, and how long they are.
import { AT, TAG, isBlock, once } from './dwarf.js';
import { ADDRESS_SIZE } from './reader.js';

const MOST_LINKS = 32, MOST_NAMED = 64;  // types that are followed, or named in one type
const MOST_PARAMETERS = 12, MOST_DIMENSIONS = 8;
const QUALIFIERS = new Map([[TAG.constant, 'const'], [TAG.volatile, 'volatile'], [TAG.atomic, '_Atomic'], [TAG.restrict, 'restrict']]);
const POINTERS = new Map([[TAG.pointer, '*'], [TAG.reference, '&'], [TAG.rvalueReference, '&&']]);
const AGGREGATES = new Map([[TAG.structure, 'struct'], [TAG.classType, 'class'], [TAG.union, 'union'], [TAG.enumeration, 'enum']]);
const WITH_TAGS = new Set([0x01, 0x02, 0x0c, 0x1d, 0x2c]);  // languages whose names of structures have `struct` before them: C

// The type of an entry, or null for none, which is `void`.
export function typeOf(entry) {
  const found = entry.unit.found(entry, AT.type);
  return (found && found.unit.reference(found.entry, AT.type)) ?? null;
}

// The type without names for it, `const` and the like.
export function plain(type) {
  let it = type;
  for (let links = 0; it && (it.tag === TAG.typedef || QUALIFIERS.has(it.tag)); links++) {
    if (links > MOST_LINKS) return null;
    it = typeOf(it);
  }
  return it;
}

export const isPointer = (type) => type?.tag === TAG.pointer;
export const isReference = (type) => type?.tag === TAG.reference || type?.tag === TAG.rvalueReference;

// How many elements each dimension of an array has, null where that isn't known before it runs.
export const dimensionsOf = (type) => once(type, 'dimensions', countsOf);

function countsOf(type) {
  return type.children.filter((it) => it.tag === TAG.subrange).slice(0, MOST_DIMENSIONS).map((it) => {
    const [count, upper] = [AT.count, AT.upperBound].map((name) => it.fields.get(name));
    const field = count ?? upper;
    if (!field || isBlock(field) || it.unit.reference(it, count ? AT.count : AT.upperBound)) return null;
    const bound = it.unit.number(it, count ? AT.count : AT.upperBound);
    const size = count ? bound : bound + 1;
    return size >= 0 && size < 2 ** 32 ? size : 0;  // an upper bound of -1 is that of no elements
  });
}

// How many bytes a value of a type has, null where that isn't known.
export function sizeOf(type, links = 0) {
  if (links > MOST_LINKS) return null;
  const it = plain(type);
  if (!it) return null;
  const size = it.unit.number(it, AT.byteSize);
  if (size !== undefined) return size;
  if (isPointer(it) || isReference(it)) return ADDRESS_SIZE;
  if (it.tag !== TAG.array) return it.tag === TAG.enumeration ? sizeOf(typeOf(it), links + 1) : null;
  const element = sizeOf(typeOf(it), links + 1), counts = dimensionsOf(it);
  return element === null || counts.includes(null) ? null : counts.reduce((product, count) => product * count, element);
}

// What a type is called.
export const typeName = (type) => (type ? once(type, 'name', () => declared(type, '', { left: MOST_NAMED })) : 'void');

// A declaration as C writes it, of `inner`, such as `*` for a pointer to the type. `room` has how many types are named besides.
function declared(type, inner, room) {
  const after = inner && `${/^[[*&(]/.test(inner) ? ' ' : ''}${inner}`;
  if (!type) return `void${after}`;
  if (room.left-- <= 0) return `…${after}`;
  const { tag } = type, target = () => typeOf(type), own = type.unit.name(type);
  if (POINTERS.has(tag)) return pointerName(POINTERS.get(tag), target(), inner, room);
  if (QUALIFIERS.has(tag)) return qualified(QUALIFIERS.get(tag), target(), inner, room);
  if (tag === TAG.array) return declared(target(), `${inner}${dimensionsOf(type).map((it) => `[${it ?? ''}]`).join('')}`, room);
  if (tag === TAG.functionType || tag === TAG.subprogram) return declared(target(), `${inner}(${parametersOf(type, room)})`, room);
  if (!AGGREGATES.has(tag)) return `${own ?? '?'}${after}`;
  const word = AGGREGATES.get(tag);
  if (own === null) return `${word} {...}${after}`;
  return `${WITH_TAGS.has(type.unit.language) ? `${word} ` : ''}${own}${after}`;
}

function pointerName(sign, target, inner, room) {
  const isWithin = target && (target.tag === TAG.array || target.tag === TAG.functionType);
  const before = `${sign}${inner}`;
  return declared(target, isWithin ? `(${before})` : before, room);
}

// `const` is before what it is about, but after the sign of a pointer.
function qualified(word, target, inner, room) {
  if (!target || !POINTERS.has(target.tag)) return `${word} ${declared(target, inner, room)}`;
  const sign = POINTERS.get(target.tag);
  return pointerName(sign, typeOf(target), ` ${word}${inner && ` ${inner}`}`, room);
}

function parametersOf(type, room) {
  const found = type.children.filter((it) => it.tag === TAG.parameter || it.tag === TAG.moreParameters);
  const names = found.slice(0, MOST_PARAMETERS).map((it) => (it.tag === TAG.parameter ? declared(typeOf(it), '', room) : '...'));
  if (found.length > MOST_PARAMETERS) names.push('…');
  return names.length ? names.join(', ') : 'void';
}
