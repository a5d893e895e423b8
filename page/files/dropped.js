// What is dropped on the page: files, and those in folders where the browser gives folders.
const MOST_FILES = 20000, DEEPEST = 20;  // of what is in folders

const listed = (reader) => new Promise((done, fail) => { reader.readEntries(done, fail); });
const fileOf = (entry) => new Promise((done, fail) => { entry.file(done, fail); });

// The files and the folders of a drop. It is called at once: the browser gives nothing later.
export function givenBy(transfer) {
  const items = [...transfer.items ?? []].filter((it) => it.kind === 'file');
  if (!items.length) return { files: [...transfer.files], folders: [] };
  const given = items.map((it) => ({ entry: it.webkitGetAsEntry?.() ?? null, file: it.getAsFile() }));
  return { files: given.filter(({ entry }) => !entry?.isDirectory).map(({ file }) => file).filter(Boolean),
    folders: given.map(({ entry }) => entry).filter((it) => it?.isDirectory) };
}

// The files in folders whose paths are wanted, with their paths.
export async function filesIn(folders, isWanted) {
  const found = [];
  let left = folders, count = 0;
  for (let depth = 0; left.length && depth < DEEPEST; depth++) {
    const next = [];
    for (const folder of left) {
      const reader = folder.createReader();
      for (let part = await listed(reader); part.length && count < MOST_FILES; part = await listed(reader)) {
        count += part.length;
        next.push(...part.filter((it) => it.isDirectory));
        found.push(...part.filter((it) => it.isFile && isWanted(it.fullPath)));
      }
    }
    left = next;
  }
  return Promise.all(found.map(async (it) => ({ path: it.fullPath, file: await fileOf(it) })));
}
