// The text of a link, packed where it is long: deflated, and in letters that an address takes. One that isn't packed is read as well.
const LONG = 1000;  // characters from which on a link is packed
const MOST = 1 << 23;  // characters of a text that is unpacked
const PACKED = '#packed=';

async function through(stream, bytes) {
  const reader = new Blob([bytes]).stream().pipeThrough(stream).getReader(), parts = [];
  let length = 0;
  for (let it = await reader.read(); !it.done; it = await reader.read()) {
    parts.push(it.value);
    length += it.value.length;
    if (length > MOST) throw new RangeError('the link is too long');
  }
  return new Uint8Array(await new Blob(parts).arrayBuffer());
}

const lettersOf = (bytes) => btoa(Array.from(bytes, (it) => String.fromCharCode(it)).join(''))
  .replaceAll('+', '-').replaceAll('/', '_').replaceAll('=', '');
const bytesOf = (letters) => Uint8Array.from(atob(letters.replaceAll('-', '+').replaceAll('_', '/')), (it) => it.charCodeAt(0));

// A link's text after `#`, with `#`.
export async function packed(hash) {
  if (hash.length <= LONG || typeof CompressionStream !== 'function') return hash;
  const made = PACKED + lettersOf(await through(new CompressionStream('deflate-raw'), new TextEncoder().encode(hash.slice(1))));
  return made.length < hash.length ? made : hash;
}

// What was packed; null of what is damaged, or too long.
export async function unpacked(hash) {
  if (!hash.startsWith(PACKED)) return hash;
  try {
    const bytes = await through(new DecompressionStream('deflate-raw'), bytesOf(hash.slice(PACKED.length)));
    return `#${new TextDecoder('utf-8', { fatal: true }).decode(bytes)}`;
  } catch {
    return null;
  }
}
