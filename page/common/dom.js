// Elements of the page. What comes from a file is only ever text in them.
export const $ = (id) => document.getElementById(id);

/**
 * The element with an id, which must be of a class.
 * @template {Element} T
 * @param {string} id
 * @param {new () => T} type
 * @returns {T}
 */
function $of(id, type) {
  const found = document.getElementById(id);
  if (found instanceof type) return found;
  throw new TypeError(`the page has no ${type.name} “${id}”`);
}

export const $input = (id) => $of(id, HTMLInputElement);
export const $select = (id) => $of(id, HTMLSelectElement);
export const $button = (id) => $of(id, HTMLButtonElement);
export const $area = (id) => $of(id, HTMLTextAreaElement);
export const $form = (id) => $of(id, HTMLFormElement);
export const $details = (id) => $of(id, HTMLDetailsElement);
export const $progress = (id) => $of(id, HTMLProgressElement);
export const $canvas = (id) => $of(id, HTMLCanvasElement);

/**
 * An element with children, which are elements or text, and attributes: listeners where a name begins with `on`, else properties
 * where it has one of that name.
 * @template {keyof HTMLElementTagNameMap} K
 * @param {K} name
 * @param {Object<string, any>} attributes
 * @param {...(Node | string)} children
 * @returns {HTMLElementTagNameMap[K]}
 */
export function element(name, attributes = {}, ...children) {
  const made = document.createElement(name);
  for (const [key, value] of Object.entries(attributes)) {
    if (key.startsWith('on')) made.addEventListener(key.slice(2), value);
    else if (key in made && key !== 'role') made[key] = value;
    else made.setAttribute(key, value);
  }
  made.append(...children);
  return made;
}

// Has the browser save a text or bytes as a file.
export function download(name, content, type = 'application/octet-stream') {
  const address = URL.createObjectURL(new Blob([content], { type }));
  element('a', { href: address, download: name }).click();
  setTimeout(() => URL.revokeObjectURL(address), 1000);
}

// Sets a text where it differs, so that a screen reader hears what changed alone.
export function say(id, text) {
  if ($(id).textContent !== text) $(id).textContent = text;
}

// Whether a screen reader says by itself what changes in an element: not while a part that nobody is at goes on by itself.
export function speaks(id, does) {
  $(id).setAttribute('aria-live', does ? 'polite' : 'off');
}

// Has an element say what changes in it while another one has the focus.
export function speaksAt(id, part) {
  speaks(id, false);
  part.addEventListener('focus', () => speaks(id, true));
  part.addEventListener('blur', () => speaks(id, false));
}

// The element that has the focus, null where none has.
export function focused() {
  const found = document.activeElement;
  return found instanceof HTMLElement ? found : null;
}

// By which name an element that has the focus is found again after its part was made anew, and that.
export const heldName = () => focused()?.dataset.held;

/**
 * @param {Element} part
 * @param {string | undefined} name
 */
export function focusHeld(part, name) {
  const found = name ? part.querySelector(`[data-held="${name}"]`) : null;
  if (found instanceof HTMLElement) found.focus();
}

// Whether a finger did it: browsers give clicks as pointer events.
export const isTouch = (event) => event instanceof PointerEvent && event.pointerType === 'touch';
