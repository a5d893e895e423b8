// What the outcomes of a sweep look like: greys for what is harmless, warm colours by the kind of the worst error, violet for leaks, blue
// for a goal, and a hatch for a run that stopped. Each pair is for light and dark pages. The colour-blind tell all of them apart.
export const COLOURS = {
  unedited: ['#f7f8f9', '#26292c'], ending: ['#dfe3e7', '#3d4247'], running: ['#878f97', '#747c84'], goal: ['#4478bf', '#73b4ff'],
  write: ['#cc2838', '#fe4f3c'], jump: ['#34000f', '#f094a8'], free: ['#a00f6e', '#ec4abb'], read: ['#d95614', '#f6a25a'],
  stop: ['#857371', '#f7f3ed'], syscall: ['#3a2801', '#f7cea9'], undefined: ['#5a4100', '#f5d825'], lost: ['#9e29fa', '#af6cfe'],
  held: ['#431fa1', '#d7d2fe'],
};
// The kind of an error, a leak or a stop, by how it begins.
export const KINDS = {
  'Invalid write': 'write', 'Jump ': 'jump', 'Invalid free': 'free', 'Invalid read': 'read', 'stopped ': 'stop', 'Syscall ': 'syscall',
  'Use of': 'undefined', 'Conditional': 'undefined', 'definitely lost at': 'lost', 'indirectly lost at': 'held',
  'possibly lost at': 'held', 'still reachable at': 'held',
};
const STRIPES = 6;  // pixels from a stripe of a hatch to the next one

export const colourOf = (kind, isDark) => COLOURS[kind][isDark ? 1 : 0];

const rgb = (colour) => [1, 3, 5].map((at) => parseInt(colour.slice(at, at + 2), 16) / 255);
const linear = (part) => (part <= 0.04045 ? part / 12.92 : ((part + 0.055) / 1.055) ** 2.4);
const LIGHT = [0.2126, 0.7152, 0.0722], MIDDLE = 0.18;

// Black or white, whichever is read on a colour.
export function inkOn(colour) {
  const light = rgb(colour).reduce((sum, it, i) => sum + linear(it) * LIGHT[i], 0);
  return light > MIDDLE ? '#000000' : '#ffffff';
}

// What a canvas fills a hatch with: stripes of a colour over the ground of the picture.
export function hatch(on, colour, isDark, scale) {
  const size = Math.round(STRIPES * scale), tile = document.createElement('canvas');
  tile.width = tile.height = size;
  const it = tile.getContext('2d');
  it.fillStyle = colour;
  it.fillRect(0, 0, size, size);
  it.strokeStyle = colourOf('unedited', isDark);
  it.lineWidth = size / 4;
  it.beginPath();
  for (const from of [-size, 0, size]) {
    it.moveTo(from, size);
    it.lineTo(from + size, 0);
  }
  it.stroke();
  return on.createPattern(tile, 'repeat');
}

// Calm tones for functions, each for light and dark pages. A function has the same one wherever it is shown.
export const TONES = [
  ['#ee9ea4', '#623236'], ['#cbe1af', '#546935'], ['#97b8f5', '#2e4268'], ['#ffc5c9', '#884d52'], ['#8bc997', '#244d2e'],
  ['#bfd8ff', '#48608e'], ['#eda28c', '#623426'], ['#b7e5bf', '#3d6d48'], ['#b1aff2', '#3f3c66'], ['#ffc8b7', '#874f3f'],
  ['#72cbb1', '#084e3e'], ['#d2d2ff', '#5c5a8c'], ['#e5a978', '#5d3917'], ['#a8e7d3', '#246f5c'], ['#c8a7e7', '#4c385f'],
  ['#fbcdaa', '#82552e'], ['#65cbca', '#004e4e'], ['#e4ccfc', '#6d5484'], ['#d5b26f', '#553e0e'], ['#a0e7e6', '#0f6e6e'],
  ['#daa1d4', '#573454'], ['#eed4a3', '#775c25'], ['#6ac6df', '#004b5b'], ['#f3c7ee', '#7a4f76'], ['#c0bb72', '#484411'],
  ['#a3e3f6', '#196b7e'], ['#e79ebd', '#5e3246'], ['#dedba5', '#676328'], ['#7dc0ee', '#194764'], ['#fdc5dc', '#834d65'],
  ['#a6c381', '#38491e'], ['#aedeff', '#316689'],
];
const MIX = 0x01000193, SEED = 0x811c9dc5;  // of the hash FNV-1a

export function toneOf(name, isDark) {
  let hash = SEED;
  for (let i = 0; i < name.length; i++) hash = Math.imul(hash ^ name.charCodeAt(i), MIX);
  return TONES[(hash >>> 0) % TONES.length][isDark ? 1 : 0];
}
