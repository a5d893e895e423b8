// Reads numbers and texts of a file's debugging information in turn. What it can't read is a fault: `Unknown` where the file has something
// newer, RangeError where it is damaged.
export const FORM = {
  addr: 0x01, block2: 0x03, block4: 0x04, data2: 0x05, data4: 0x06, data8: 0x07, string: 0x08, block: 0x09, block1: 0x0a, data1: 0x0b,
  flag: 0x0c, sdata: 0x0d, strp: 0x0e, udata: 0x0f, refAddr: 0x10, ref1: 0x11, ref2: 0x12, ref4: 0x13, ref8: 0x14, refUdata: 0x15,
  indirect: 0x16, secOffset: 0x17, exprloc: 0x18, flagPresent: 0x19, strx: 0x1a, addrx: 0x1b, refSup4: 0x1c, strpSup: 0x1d, data16: 0x1e,
  lineStrp: 0x1f, refSig8: 0x20, implicitConst: 0x21, loclistx: 0x22, rnglistx: 0x23, refSup8: 0x24, strx1: 0x25, strx2: 0x26, strx3: 0x27,
  strx4: 0x28, addrx1: 0x29, addrx2: 0x2a, addrx3: 0x2b, addrx4: 0x2c,
};
export const STRINGS = new Map([[FORM.strp, '.debug_str'], [FORM.lineStrp, '.debug_line_str']]);  // where the text of a form is
export const ADDRESS_SIZE = 4;
export const LONG_LENGTH = 0xfffffff0;  // a length from here on stands before one of 64 bits, which isn't read
const MOST_BYTES = 8;  // of a number

export class Unknown extends Error {}

export class Reader {
  elf;
  at;

  constructor(elf, at) {
    this.elf = elf;
    this.at = at;
  }

  byte() { return this.elf.view.getUint8(this.at++); }
  signedByte() { return this.elf.view.getInt8(this.at++); }
  half() { return this.elf.half((this.at += 2) - 2); }
  word() { return this.elf.word((this.at += 4) - 4); }

  // An unsigned number of some bytes, the lowest first. One of more than eight is passed over, as 0.
  fixed(length) {
    if (length === 4) return this.word();
    let value = 0;
    for (let i = 0, scale = 1; i < length; i++, scale *= 256) value += this.byte() * scale;
    return length > MOST_BYTES ? 0 : value;
  }

  // A number in as many bytes as it needs, of seven bits each, the lowest first (LEB128); `wide` is one more than the greatest that these
  // have room for, and `isHigh` says whether the highest bit is set, which is the sign of a signed one.
  packed() {
    let value = 0, byte, wide = 1;
    do {
      byte = this.byte();
      value += (byte & 127) * wide;
      wide *= 128;
    } while (byte & 128);
    return { value, wide, isHigh: Boolean(byte & 64) };
  }

  unsigned() { return this.packed().value; }

  signed() {
    const { value, wide, isHigh } = this.packed();
    return isHigh ? value - wide : value;
  }

  string() {
    const text = this.elf.string(this.at);
    while (this.byte());
    return text;
  }

  // The place of some bytes, which are passed over.
  block(length) {
    const at = this.at;
    if (at + length > this.elf.bytes.length) throw new RangeError('a block beyond the file');
    this.at += length;
    return { at, length };
  }

  // The text or the number of an entry in a table of lines.
  form(form) {
    if (STRINGS.has(form)) return textIn(this.elf, STRINGS.get(form), this.word()) ?? '?';
    switch (form) {
      case FORM.string: return this.string();
      case FORM.data1: return this.byte();
      case FORM.data2: return this.half();
      case FORM.udata: return this.unsigned();
      case FORM.data16: return this.fixed(16);
      default: throw new Unknown(`form ${form}`);
    }
  }
}

// The text at an offset of a section, or null.
export function textIn(elf, section, offset) {
  const found = elf.section(section);
  return found && offset < found.size ? elf.string(found.begin + offset) : null;
}
