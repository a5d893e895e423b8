// Where the program's module and the worker come from in the page of one file: from its own texts.
import { MODULE, WORKER } from './inlined.js';

let loading = null;
let address = null;

async function unpacked() {
  const packed = Uint8Array.from(atob(MODULE), (it) => it.charCodeAt(0));
  const stream = new Blob([packed]).stream().pipeThrough(new DecompressionStream('gzip'));
  return WebAssembly.compile(await new Response(stream).arrayBuffer());
}

export function loadModule() {
  loading ??= unpacked();
  loading.catch(() => { loading = null; });
  return loading;
}

export function makeWorker() {
  address ??= URL.createObjectURL(new Blob([WORKER], { type: 'text/javascript' }));
  return new Worker(address);
}
