// The blocks of the heap at the step that is shown: a map of them in the order of their addresses, one of them in words, and a list.
import { $, $canvas, $details, element, focusHeld, heldName, isTouch, say, speaksAt } from '../common/dom.js';
import { grouped, hexWord, many } from '../common/numbers.js';
import { BlockMap, TALL } from './blockmap.js';

const MOST = 8192;  // blocks that are read and shown
const LISTED = 100;  // of which a list has those around the one that is picked
const TOP = 6, SIDE = 1;  // pixels above a block in its row, where a dot marks it, and the width of an outline
const DOT = 2.5;
const DARK = matchMedia('(prefers-color-scheme: dark)');
const BLOCK = /^block (0x[0-9a-f]{8}) (\d+) (live|freed)((?: 0x[0-9a-f]{8})*)$/;
const NEXT = /^next (0x[0-9a-f]{8})$/;

// The blocks of a reply to a look, and where the next look begins, null at the end.
export function parseBlocks(text) {
  const lines = text.trimEnd().split('\n'), next = NEXT.exec(lines.at(-1))?.[1] ?? null;
  const blocks = lines.map((it) => BLOCK.exec(it)).filter(Boolean).map(([, start, size, how, trace]) => ({ start: Number(start),
    size: Number(size), isLive: how === 'live', trace: trace.split(' ').filter(Boolean).map(Number) }));
  return { blocks, next };
}

// All blocks, or the first of them, from the reply to the first look on: null once nobody wants them. `look` promises the reply to a line.
export async function readBlocks(look, first, isStale) {
  const blocks = [];
  let { blocks: found, next } = parseBlocks(first);
  for (;;) {
    for (const it of found) blocks.push(it);
    if (next === null || blocks.length >= MOST) return { blocks, isWhole: next === null };
    ({ blocks: found, next } = parseBlocks(await look(`look blocks ${next}`)));
    if (isStale()) return null;
  }
}

// What has changed from one list of blocks to another: of each that has, by its start, what it is now.
export function changedBlocks(before, now) {
  const were = new Map(before.map((it) => [it.start, it])), changed = new Map();
  for (const { start, size, isLive } of now) {
    const was = were.get(start);
    if (was?.size === size && was.isLive === isLive) continue;
    changed.set(start, isLive ? (was?.isLive ? 'resized' : 'allocated') : 'freed');
  }
  return changed;
}

export class Blocks {
  callerOf;
  showMemory;
  canvas = $canvas('blocks');
  blocks = [];
  isWhole = true;
  changed = new Map();
  picked = 0;
  frame = null;
  /** @type {?BlockMap} */ map = null;
  step;

  // `callerOf` tells which function a trace is of, beside those of the heap; `show` shows the memory at an address.
  constructor({ callerOf, show }) {
    this.callerOf = callerOf;
    this.showMemory = show;
    this.canvas.addEventListener('pointermove', (event) => this.point(event));
    this.canvas.addEventListener('click', (event) => {
      this.point(event);
      if (!isTouch(event)) this.choose();
    });
    this.canvas.addEventListener('keydown', (event) => this.key(event));
    for (const it of ['focus', 'blur']) this.canvas.addEventListener(it, () => this.draw());
    speaksAt('block-told', this.canvas);
    $('block-show').addEventListener('click', () => this.choose());
    $('block-list').addEventListener('toggle', () => this.list());
    new ResizeObserver(() => this.draw()).observe($('blocks-frame'));
    DARK.addEventListener('change', () => this.draw());
  }

  clear() { this.show({ blocks: [], isWhole: true }, 0); }

  // Shows blocks before a step. What has changed is marked later.
  show({ blocks, isWhole }, step) {
    const start = this.blocks[this.picked]?.start ?? 0, found = blocks.findIndex((it) => it.start >= start);
    this.blocks = blocks;
    this.isWhole = isWhole;
    this.step = step;
    this.changed = new Map();
    this.picked = Math.max(0, found < 0 ? blocks.length - 1 : found);
    this.wait(false);
    say('blocks-told', this.summary());
    for (const it of ['blocks-frame', 'block-row', 'block-list', 'block-key']) $(it).hidden = !blocks.length;
    this.draw();
    this.tell();
    this.list();
  }

  // Marks blocks by their starts.
  mark(changed) {
    this.changed = changed;
    this.draw();
    this.tell();
    this.list();
  }

  // Greys what is of another step until all blocks of this one are read.
  wait(does) { $('blocks-panel').classList.toggle('reading', does); }

  summary() {
    const { blocks } = this;
    if (!blocks.length) return 'no blocks';
    const live = blocks.filter((it) => it.isLive), bytes = live.reduce((sum, it) => sum + it.size, 0);
    const told = `${many(live.length, 'live block')} with ${many(bytes, 'byte')}, ${grouped(blocks.length - live.length)} freed`;
    return this.isWhole ? told : `the first ${grouped(blocks.length)}: ${told}`;
  }

  // ---- the map

  // Draws the map in the next frame, however often it is asked to until then.
  draw() {
    this.frame ??= requestAnimationFrame(() => {
      this.frame = null;
      this.paint();
    });
  }

  // Where the blocks that are shown are in the map, null where none is seen.
  get places() {
    const wide = $('blocks-frame').clientWidth;
    if (!wide || !this.blocks.length) return null;
    if (this.map?.blocks !== this.blocks || this.map.wide !== wide) this.map = new BlockMap(this.blocks, wide);
    return this.map;
  }

  paint() {
    const scale = devicePixelRatio || 1, map = this.places;
    if (!map) return;
    this.canvas.style.height = `${map.rows * TALL}px`;
    this.canvas.width = Math.round(map.wide * scale);
    this.canvas.height = Math.round(map.rows * TALL * scale);
    const on = this.canvas.getContext('2d'), style = getComputedStyle(this.canvas);
    const [live, freed, ink, pick] = ['--heap', '--quiet', '--ink', '--pick'].map((it) => style.getPropertyValue(it));
    on.scale(scale, scale);
    this.blocks.forEach((block, index) => {
      for (const part of map.partsOf(index)) this.drawPart(on, block, part, { live, freed, ink });
    });
    for (const part of map.partsOf(this.picked)) this.outline(on, part, pick);
  }

  drawPart(on, { start, isLive }, { x, row, wide }, { live, freed, ink }) {
    const y = row * TALL + TOP, tall = TALL - TOP - 2;
    if (isLive) {
      on.fillStyle = live;
      on.fillRect(x, y, wide, tall);
    } else {
      on.strokeStyle = freed;
      on.lineWidth = SIDE;
      on.strokeRect(x + SIDE / 2, y + SIDE / 2, Math.max(1, wide - SIDE), tall - SIDE);
      on.beginPath();
      on.moveTo(x, y + tall);
      on.lineTo(x + Math.min(wide, tall), y + tall - Math.min(wide, tall));
      on.stroke();
    }
    if (!this.changed.has(start)) return;
    on.fillStyle = ink;
    on.beginPath();
    on.arc(x + wide / 2, row * TALL + DOT + 0.5, DOT, 0, 2 * Math.PI);
    on.fill();
  }

  outline(on, { x, row, wide }, pick) {
    on.strokeStyle = pick;
    on.lineWidth = 2;
    on.strokeRect(x - 1, row * TALL + TOP - 1, wide + 2, TALL - TOP);
  }

  point({ clientX, clientY }) {
    const { left, top } = this.canvas.getBoundingClientRect();
    const { places } = this;
    if (places) this.pick(places.at(clientX - left, Math.floor((clientY - top) / TALL)));
  }

  key(event) {
    const { places } = this;
    if (!places || event.ctrlKey || event.altKey || event.metaKey) return;
    const next = places.next(this.picked, event.key);
    if (next !== null) this.pick(next);
    else if (event.key === 'Enter') this.choose();
    else return;
    event.preventDefault();
    this.scroll();
  }

  // Has the row of the block that is picked in view.
  scroll() {
    const [part] = this.places.partsOf(this.picked), frame = $('blocks-frame'), top = part.row * TALL;
    if (top < frame.scrollTop) frame.scrollTop = top;
    else if (top + TALL > frame.scrollTop + frame.clientHeight) frame.scrollTop = top + TALL - frame.clientHeight;
  }

  pick(index) {
    if (index === this.picked) return;
    this.picked = index;
    this.draw();
    this.tell();
    this.list();
  }

  choose() {
    const block = this.blocks[this.picked];
    if (block) this.showMemory(block.start);
  }

  // ---- in words

  // Whether a block is live, what the step before has done with it, and the function of its trace.
  state({ start, isLive, trace }) {
    const how = this.changed.get(start), who = this.callerOf(trace), does = how ?? (isLive ? 'allocated' : 'freed');
    const step = how ? ` in step ${grouped(this.step - 1)}` : '', by = who ? ` by ${who}` : '';
    return `${isLive ? 'live, ' : ''}${does}${step}${by}`;
  }

  told(block) { return `${many(block.size, 'byte')} at ${hexWord(block.start)}, ${this.state(block)}`; }

  tell() {
    const block = this.blocks[this.picked];
    say('block-told', block ? this.told(block) : '');
  }

  // Lists the blocks around the one that is picked, if the list is open.
  list() {
    const { blocks, picked } = this;
    if (!$details('block-list').open) return;
    const first = Math.max(0, Math.min(picked - LISTED / 2, blocks.length - LISTED)), listed = blocks.slice(first, first + LISTED);
    const held = heldName();
    $('block-rows').replaceChildren(...listed.map((it, i) => this.row(it, first + i)));
    focusHeld($('block-rows'), held);
    const told = `${many(listed.length, 'block')} of ${grouped(blocks.length)}, those around the one that is picked`;
    say('block-listed', blocks.length > listed.length ? told : '');
  }

  row(block, index) {
    const choose = () => {
      this.pick(index);
      this.choose();
    };
    const button = element('button', { className: index === this.picked ? 'here' : '', onclick: choose }, hexWord(block.start));
    button.dataset.held = `block ${block.start}`;
    return element('tr', {}, element('td', {}, button), element('td', { className: 'number' }, grouped(block.size)),
      element('td', {}, element(this.changed.has(block.start) ? 'strong' : 'span', {}, this.state(block))));
  }
}
