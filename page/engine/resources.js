// Where the program's module and the worker come from: files beside this one. In the page of one file both are in it.
let loading = null;

export function loadModule() {
  loading ??= WebAssembly.compileStreaming(fetch(new URL('../replaycheck.wasm', import.meta.url)));
  loading.catch(() => { loading = null; });
  return loading;
}

export const makeWorker = () => new Worker(new URL('worker.js', import.meta.url), { type: 'module' });
