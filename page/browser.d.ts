// What the browsers that run the page have, and what the declarations of Debian's TypeScript don't have yet.
interface Array<T> {
  with(index: number, value: T): T[];
  toSpliced(start: number, deleteCount: number, ...items: T[]): T[];
  findLast(is: (value: T, index: number) => boolean): T | undefined;
  findLastIndex(is: (value: T, index: number) => boolean): number;
}

declare class CompressionStream { constructor(format: string); readable: ReadableStream; writable: WritableStream; }
declare class DecompressionStream { constructor(format: string); readable: ReadableStream; writable: WritableStream; }

declare namespace WebAssembly {
  class Suspending { constructor(does: Function); }
  function promising(does: Function): () => Promise<number>;
}
