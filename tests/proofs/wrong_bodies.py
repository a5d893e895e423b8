"""Wrong bodies: the edits of crates/CRATE/wrong-bodies/, what they make of the sources, and the functions that they change.

An edit is lines `file: src/FILE`, `old: TEXT` (standing once in that file) and `new: TEXT`; further pairs apply to what the earlier ones
made. `gate: yes` has the gate try it. `function: PATH` names a function whose contract must refuse it, as `rt check --only` takes it;
with none, these are the functions round the texts, and for a text outside of all functions those of its module.
"""
import re

FOLDERS = ("must-fail", "wrong-bodies")
HEAD = re.compile(r"( *)(?:pub(?:\(\w+\))? )?(?:const )?(?:unsafe )?fn (\w+)")


class Fault(Exception):
    """Why an edit can't be tried."""


class Edit:
    def __init__(self, path, folder=None):
        self.path, self.folder = path, folder or path.parent.parent
        self.crate = self.folder.name
        self.name = f"{self.crate}/{path.stem}"
        lines = [line.partition(":")[::2] for line in path.read_text(encoding="utf-8").splitlines()]
        self.lines = [(word, text[1:] if text.startswith(" ") else text) for word, text in lines]
        self.named = [text.strip() for word, text in self.lines if word == "function"]
        self.in_gate = path.parent.name == "must-fail" or ("gate", "yes") in self.lines

    def apply(self, before=None):
        """The texts of the files that it changes, by their path in the crate, and the functions that it changes. The texts that other edits
        have made before it may be given."""
        texts, functions, source, old = dict(before or {}), [], None, None
        for word, text in self.lines:
            if word == "file":
                source = text.strip()
                if not source.startswith("src/") or ".." in source:
                    raise Fault(f"{source} is no file of src/")
            elif word == "old":
                old = text
            elif word == "new":
                if not source or not old:
                    raise Fault("a line `new:` stands before any `file:` or `old:`")
                if source not in texts:
                    file = self.folder / source
                    if not file.is_file():
                        raise Fault(f"no file {source}")
                    texts[source] = file.read_text(encoding="utf-8")
                found = texts[source].count(old)
                if found != 1:
                    raise Fault(f"{source} has {found} of: {old.strip()}")
                at = function_at(source, texts[source], texts[source].index(old) + len(old) - len(old.lstrip()))
                functions += [at] if at not in functions else []
                texts[source], old = texts[source].replace(old, text), None
        if not functions:
            raise Fault("it has no lines `old:` and `new:`")
        self.inside = [it for it in functions if not any(module_of(source) == it for source in texts)]
        self.is_of_bodies = self.inside == functions
        functions = self.inside or functions
        if not self.named and "" in functions:
            raise Fault("a text of the root file stands in no function: name those whose contracts refuse it by lines `function: PATH`")
        return texts, self.named or functions


def function_at(source, text, place):
    """The path below the crate of the function in which a place of a source stands, else of its module. Goes by the layout of `rt fmt`."""
    lines = text.split("\n")
    row = text.count("\n", 0, place)
    for at in range(row, -1, -1):
        head = HEAD.match(lines[at])
        if head:
            is_end = lambda i: lines[i].startswith(f"{head[1]}}}") or i == at and lines[i].endswith("}")
            end = next((i for i in range(at, len(lines)) if is_end(i)), len(lines))
            return path_of(source, lines, at, head) if row <= end else module_of(source)
    return module_of(source)


def module_of(source):
    """The path of a source's module; empty for the root file."""
    names = re.sub(r"(/mod)?\.rt$", "", source).split("/")[1:]
    return "" if names in (["lib"], ["main"]) else "::".join(names)


def path_of(source, lines, at, head):
    """What `rt check --only` takes for the function whose head stands in a line: a method by its type alone, in whose module a check has
    it."""
    while head[1] and at >= 0:
        at -= 1
        if re.match(r"(impl|trait|pub trait)\b", lines[at]):
            return f"{owner(' '.join(lines[at : at + 4]))}::{head[2]}"
    return "::".join(it for it in (module_of(source), head[2]) if it)


def owner(text):
    """What a check calls an impl, by its head: its type, and after that the trait."""
    text = re.sub(r"^(pub )?(impl|trait)\b", "", text.partition("{")[0].partition(" where ")[0])
    while re.search(r"<[^<>]*>", text):
        text = re.sub(r"<[^<>]*>", "", text.replace("->", "  "))
    trait, word, kind = text.partition(" for ")
    last = [re.findall(r"\w+", it)[-1] for it in ([kind, trait] if word else [trait.partition(":")[0]])]
    return "".join(last)


def functions_of(texts):
    """Of a crate's sources, the free functions and the types' own methods that don't call themselves, by their paths below the crate: the
    source of each, and the lines between which the body stands that can be another. The proof of one that calls itself stands elsewhere."""
    homes, found = {}, {}
    for source, text in texts.items():
        homes.update(dict.fromkeys(re.findall(r"(?m)^(?:pub(?:\(\w+\))? )?(?:struct|enum) (\w+)", text), module_of(source)))
    for source, text in texts.items():
        lines = text.split("\n")
        for at, head in ((at, HEAD.match(line)) for at, line in enumerate(lines)):
            if not head:
                continue
            begin, end = body_at(lines, at, head[1])
            call = r"\b[sS]elf(\.|::)" if head[1] else r"(?<![.:\w])"
            if re.search(rf"{call}{head[2]}\(", "\n".join(lines[begin:end])):
                continue
            if not head[1]:
                path = [module_of(source), head[2]]
            else:
                above = next((it for it in range(at, -1, -1) if re.match(r"[a-z]", lines[it])), 0)
                text = " ".join(lines[above : above + 4]).partition("{")[0]
                if not text.startswith("impl") or " for " in text or owner(text) not in homes:
                    continue
                path = [homes[owner(text)], owner(text), head[2]]
            # A constant may need what a body computes.
            is_constant = "const fn" in lines[at]
            found["::".join(it for it in path if it)] = source, begin, begin if is_constant else end
    return found


def body_at(lines, at, indent):
    """Between which lines the body stands of the function whose head is in a line; none of a body in one line with a brace."""
    begin = at
    while not lines[begin].endswith(("{", "}")) or lines[begin].startswith(f"{indent} "):
        begin += 1
    if not lines[begin].endswith("{"):
        return begin, begin
    return begin + 1, next(it for it in range(begin + 1, len(lines)) if lines[it].startswith(f"{indent}}}"))


def emptied(texts, functions):
    """The sources with a loop that does nothing in the place of the bodies of all other functions, which has any type and calls none."""
    lines = {source: text.split("\n") for source, text in texts.items()}
    for path, (source, begin, end) in reversed(functions_of(texts).items()):
        if begin < end and not is_one_of(path, functions):
            lines[source][begin:end] = [re.match(" *", lines[source][end])[0] + "    loop {}"]
    return {source: "\n".join(it) for source, it in lines.items()}


def is_one_of(path, functions):
    """Whether a path below the crate is one of these, which may be the ends of such paths."""
    return any(f"::{path}".endswith(f"::{it}") for it in functions)


def all_edits(top, crates=()):
    """The edits of the crates named, or of all."""
    found = [it for folder in FOLDERS for it in top.glob(f"crates/*/{folder}/*.edit")]
    return [Edit(it) for it in sorted(found) if not crates or it.parts[-3] in crates]
