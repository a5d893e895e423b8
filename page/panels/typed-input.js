// An input that is typed or pasted, as hexadecimal digits or as text: an edit that puts it in the place of the one that there is.
import { $, $area, $select } from '../common/dom.js';
import { grouped } from '../common/numbers.js';

const MOST = 4096;  // bytes: each may become a line of the scenario
const SPACE = /0x|[\s,;:]/gi;  // what may be between bytes

// The bytes of hexadecimal digits, null if there is anything else, or an odd number of them.
export function bytesOfDigits(text) {
  const digits = text.replace(SPACE, '');
  return /^(?:[0-9a-f]{2})*$/i.test(digits) ? (digits.match(/../g) ?? []).map((it) => parseInt(it, 16)) : null;
}

export class TypedInput {
  use;
  refuse;

  // `use` takes the bytes, `refuse` a sentence.
  constructor({ use, refuse }) {
    this.use = use;
    this.refuse = refuse;
    $('typed-form').addEventListener('submit', (event) => {
      event.preventDefault();
      this.take($area('typed').value, $select('typed-as').value);
    });
  }

  take(text, form) {
    const bytes = form === 'text' ? [...new TextEncoder().encode(text)] : bytesOfDigits(text);
    if (!bytes) this.refuse('These are no bytes: write two hexadecimal digits for each, such as 01 07 68, or choose “text”.');
    else if (bytes.length <= MOST) this.use(bytes);
    else this.refuse(`These are ${grouped(bytes.length)} bytes, and ${grouped(MOST)} can be typed: open them as a file.`);
  }
}
