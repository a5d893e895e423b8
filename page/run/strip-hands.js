// What a mouse, a wheel and fingers do to the strip: a click, a drag that pans, a wheel that zooms with Ctrl and pans without it, a pinch.
const SLACK = 4;  // pixels that a pointer moves in a click
const WHEEL = 400;  // pixels of a wheel by which the steps that are shown are some three times as many
const LINE = 16;  // pixels of a line, where a wheel counts these

export class Hands {
  canvas;
  pan;
  zoom;
  point;
  choose;
  leave;
  fingers = new Map();
  isDrag = false;

  // `pan` takes pixels sideways and down, `zoom` how many times as many steps are wanted and the pixel that stays; `point` and `choose`
  // take pixels from the left and the top; `leave` is told that nothing points any more.
  constructor(canvas, { pan, zoom, point, choose, leave }) {
    this.canvas = canvas;
    this.pan = pan;
    this.zoom = zoom;
    this.point = point;
    this.choose = choose;
    this.leave = leave;
    canvas.addEventListener('pointerdown', (event) => this.down(event));
    canvas.addEventListener('pointermove', (event) => this.move(event));
    canvas.addEventListener('pointerup', (event) => this.up(event));
    canvas.addEventListener('pointercancel', (event) => this.fingers.delete(event.pointerId));
    canvas.addEventListener('pointerleave', (event) => { if (!this.fingers.size && event.pointerType === 'mouse') this.leave(); });
    canvas.addEventListener('wheel', (event) => this.wheel(event), { passive: false });
    canvas.addEventListener('touchmove', (event) => { if (event.touches.length > 1) event.preventDefault(); }, { passive: false });
  }

  place({ clientX, clientY }) {
    const { left, top } = this.canvas.getBoundingClientRect();
    return { x: clientX - left, y: clientY - top };
  }

  down(event) {
    if (event.button !== 0) return;
    if (!this.fingers.size) this.isDrag = false;
    this.canvas.setPointerCapture(event.pointerId);  // so that it is known where the pointer is lifted
    this.fingers.set(event.pointerId, { ...this.place(event), begun: this.place(event) });
    if (this.fingers.size > 1) this.isDrag = true;
  }

  move(event) {
    const was = this.fingers.get(event.pointerId), now = this.place(event);
    if (!was) {
      if (event.pointerType === 'mouse') this.point(now.x, now.y);
      return;
    }
    const isFar = Math.hypot(now.x - was.begun.x, now.y - was.begun.y) > SLACK;
    if (!this.isDrag && !isFar) return;
    this.isDrag = true;
    const other = [...this.fingers].find(([id]) => id !== event.pointerId)?.[1];
    if (other) this.pinch(was, now, other);
    else this.pan(was.x - now.x, event.pointerType === 'mouse' ? was.y - now.y : 0);
    Object.assign(was, now);
  }

  // Two fingers that go apart: what is between them stays there.
  pinch(was, now, other) {
    const [before, after] = [was, now].map((it) => Math.max(SLACK, Math.abs(it.x - other.x)));
    this.zoom(before / after, (now.x + other.x) / 2);
    this.pan((was.x - now.x) / 2, 0);
  }

  up(event) {
    if (!this.fingers.delete(event.pointerId) || this.isDrag) return;
    const { x, y } = this.place(event);
    this.choose(x, y);
  }

  wheel(event) {
    const scale = event.deltaMode ? LINE : 1, [across, down] = [event.deltaX, event.deltaY].map((it) => it * scale);
    const sideways = event.shiftKey && !across ? down : across;
    if (event.ctrlKey || event.metaKey) this.zoom(Math.exp(down / WHEEL), this.place(event).x);
    else if (sideways && Math.abs(sideways) >= Math.abs(event.shiftKey ? 0 : down)) this.pan(sideways, 0);
    else return;  // the page scrolls
    event.preventDefault();
  }
}
