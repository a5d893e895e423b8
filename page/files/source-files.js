// Source files that are there, found by the paths that a program has of its own, and which of their lines are shown.
const AROUND = 20;  // lines before and after one that is in no function with a name
const MOST_LINES = 600;  // that are shown
const MOST_ABOVE = 8;  // lines of a comment above a function
const MOST_FILES = 2000;

// The parts of a path, without those that lead back.
function partsOf(path) {
  const parts = [];
  for (const it of path.split(/[\\/]+/)) {
    if (it === '..' && parts.length && parts.at(-1) !== '..') parts.pop();
    else if (it && it !== '.') parts.push(it);
  }
  return parts;
}

// How many parts two paths have in common at their ends.
export function tailOf(one, other) {
  const [a, b] = [partsOf(one), partsOf(other)];
  let count = 0;
  while (count < Math.min(a.length, b.length) && a.at(-1 - count) === b.at(-1 - count)) count++;
  return count;
}

const nameOf = (path) => partsOf(path).at(-1) ?? '';
const names = new WeakMap();  // of the paths of a program

// Whether a file is one of a program's, by its name.
export function isSource(path, paths) {
  if (!names.has(paths)) names.set(paths, new Set([...paths].map(nameOf)));
  return names.get(paths).has(nameOf(path));
}

export class SourceFiles {
  files = [];

  // Takes a text in place of another one of the same path.
  add(path, text) {
    this.files = [{ path, lines: text.split(/\r\n|\n/) }, ...this.files.filter((it) => it.path !== path)].slice(0, MOST_FILES);
  }

  // The file of a program's path, that with the longest common tail; and whether it may be another file of that name among `paths`.
  find(path, paths) {
    const [best] = this.files.map((file) => ({ file, tail: tailOf(path, file.path) })).filter((it) => it.tail)
      .sort((a, b) => b.tail - a.tail);
    if (!best) return null;
    const isUnsure = [...paths].some((it) => it !== path && tailOf(it, best.file.path) >= best.tail);
    return { ...best.file, isUnsure };
  }
}

// The first and the last line that are shown for a line of a file: those of the function in which it is. `openings` are the lines at which
// functions of the file begin, in order, and `lines` its text.
export function spanOf(line, openings, lines) {
  const before = openings.filter((it) => it <= line).at(-1), after = openings.find((it) => it > line);
  let begin = before === undefined ? Math.max(1, line - AROUND) : above(before, lines);
  let end = before === undefined ? Math.min(lines.length, line + AROUND) : lines.length;
  if (after !== undefined) end = Math.min(end, Math.max(line, above(after, lines) - 1));
  while (end > line && !lines[end - 1]?.trim()) end--;
  if (end - begin >= MOST_LINES) {
    begin = Math.max(begin, line - MOST_LINES / 2);
    end = Math.min(end, begin + MOST_LINES - 1);
  }
  return { begin, end };
}

// Where the text begins that belongs to a function: lines without a gap above it.
function above(opening, lines) {
  let begin = opening;
  while (begin > 1 && opening - begin < MOST_ABOVE && lines[begin - 2]?.trim() && !/^[}#]/.test(lines[begin - 2])) begin--;
  return begin;
}
