"""Man pages: what a page of help says, section by section, with what man_rows.py adds to it.

A page of help is paragraphs. One that begins with `usage:` becomes the synopsis. A list, whose items are indented, goes to the section that
its title names: `Exit status:`, `Environment:` or, if its items begin with a hyphen, the options. All else is the description. An example
that the program's own help has is left out, as it names files that nobody has; man_rows.py has examples that run."""
import datetime
import re
from typing import NamedTuple

from packaging.man_rows import ENVIRONMENTS, EXAMPLES, FILES, SEE_ALSO, STATUSES, SYNOPSES

# Between a list's item and what is said of it.
GAP = re.compile(r" {2,}")
ITEM, OPTION = re.compile(r"  \S"), re.compile(r" {2,6}-")
WORD = re.compile(r"`([^`]*)`|(?<![\w-])(--?[a-z][a-z-]*)")
PLACEHOLDER = re.compile(r"\b[A-Z][A-Z]*\b")
PARTS = ("SYNOPSIS", "DESCRIPTION", "COMMANDS", "TOOLS", "OPTIONS", "EXIT STATUS", "ENVIRONMENT", "FILES", "EXAMPLES", "SEE ALSO")
NAMED = {"Commands": "COMMANDS", "Tools": "TOOLS", "Exit status": "EXIT STATUS", "Environment": "ENVIRONMENT"}
OF_EACH_TOOL = (("-h, --help", "print the page of help"), ("--version", "print the version"))
MANUAL = "/usr/share/doc/replaycheck/manual/index.html"
NOT_BROKEN = (".nr HY 0", ".nh", ".ad l")  # no word is broken, so that each is found by a search
COPIED = "Copy the examples of the package first: the commands below run in that copy."
COPY = ["$ cp -r /usr/share/replaycheck/examples .", "$ cd examples/firmware"]


class Item(NamedTuple):
    """An item of a list, and what is said of it."""

    name: str
    text: str


def man_pages(helps, source):
    """The pages, by their files' names."""
    date = datetime.datetime.fromtimestamp(source.time, datetime.timezone.utc).strftime("%Y-%m-%d")
    names = [told.name for told in helps if told.name]
    return {f"{called(told.name)}.1": page(told, names, f'"{date}" "replaycheck {source.version}" "Memcheck for RV32IM"') for told in helps}


def called(name):
    return f"replaycheck-{name}" if name else "replaycheck"


def page(told, names, heads):
    """The page of a command or a tool."""
    parts = sections(told)
    summary = told.summary[:1].lower() + told.summary[1:].removesuffix(".")
    lines = [f'.TH "{called(told.name).upper()}" "1" {heads}', *NOT_BROKEN, ".SH NAME", f"{plain(called(told.name))} \\- {plain(summary)}"]
    for name in PARTS:
        if name == "EXAMPLES":
            body = examples(told.name)
        elif name == "SEE ALSO":
            body = see_also(told.name, names)
        else:
            body = parts.get(name)
        if body:
            lines += [f'.SH "{name}"', *(body[1:] if body[0] == ".PP" else body)]
    return "\n".join(lines) + "\n"


# ---- a page of help, section by section

def sections(told):
    """The lines of each section that the help gives."""
    found, usages, options = {}, SYNOPSES.get(told.name, []), []
    at = "DESCRIPTION"
    for part in told.text.strip().split("\n\n"):
        title, _, rest = part.partition("\n")
        head = title.partition(":")[0].partition(",")[0].partition(" with ")[0]
        if part.lower().startswith("usage: "):
            at, usages = "DESCRIPTION", usages_of(part) if usages in ([], [""]) else usages
        elif part.startswith("Example"):
            continue
        elif head in NAMED and ITEM.match(rest):
            at = NAMED[head]
            shape = as_references if at in ("COMMANDS", "TOOLS") else as_variables if at == "ENVIRONMENT" else tagged
            subtitle = [".PP", marked(title)] if at in found else []
            found.setdefault(at, []).extend([*subtitle, *shape(items_of(rest.split("\n")))])
        elif OPTION.match(rest) or title in ("Arguments:", "Options:"):
            items = [item for item in items_of(rest.split("\n")) if item.name not in [name for name, _ in options]]
            options += items
            subtitle = [] if title in ("Arguments:", "Options:") else [f'.SS "{plain(title.rstrip(":"))}"']
            found.setdefault("OPTIONS", []).extend([*subtitle, *tagged(items)])
        else:
            found.setdefault(at if at in ("EXIT STATUS", "DESCRIPTION") else "DESCRIPTION", []).extend(paragraph(part))
    if told.is_tool:
        found.setdefault("OPTIONS", []).extend(tagged(Item(*row) for row in OF_EACH_TOOL))
    more = (("EXIT STATUS", STATUSES, tagged), ("ENVIRONMENT", ENVIRONMENTS, as_variables), ("FILES", FILES, as_variables))
    for name, rows, shape in more:
        if told.name in rows:
            found.setdefault(name, []).extend(shape(Item(*row) for row in rows[told.name]))
    found["SYNOPSIS"] = synopsis(usages if usages != [""] else [own_usage(told.name, options)])
    return found


def usages_of(part):
    """The command lines of a paragraph of usage, each in a line; an empty one for those of the program, which doesn't list options."""
    if part.startswith("Usage: "):
        return [""]
    lines = part.removeprefix("usage: ").split("\n")
    found = []
    for line in lines:
        if line.strip().startswith("replaycheck ") or not found:
            found.append(line.strip())
        else:
            found[-1] += " " + line.strip()
    return found


def own_usage(name, options):
    given = [item.name for item in options if item.name.startswith("--") or not item.name.startswith("-")]
    return f"replaycheck {name} " + " ".join(word if not word.startswith("-") else f"[{word}]" for word in given)


def items_of(lines):
    """The items of a list, each with its text, which may go on in lines that are indented further."""
    found, least = [], min(len(row) - len(row.lstrip()) for row in lines)
    for line in lines:
        indent = len(line) - len(line.lstrip())
        if indent == least or OPTION.match(line):
            name, text = (GAP.split(line.strip(), 1) + [""])[:2]
            found.append(Item(re.sub(r"[<>]", "", name), text))
        else:
            found[-1] = Item(found[-1].name, f"{found[-1].text} {line.strip()}".strip())
    return found


# ---- in the language of man pages

def plain(text):
    """A text as it is."""
    text = text.replace("\\", "\\e").replace("-", "\\-").replace("'", "\\(aq").replace("`", "\\(ga")
    return text.replace("^", "\\(ha").replace("~", "\\(ti").replace('"', "\\(dq")


def line_of(text):
    """A line, which no request begins."""
    return "\\&" + text if text.startswith((".", "'")) else text


def marked(text):
    """A text with what stands between backquotes, and options, in bold."""
    found, at = [], 0
    for word in WORD.finditer(text):
        found += [plain(text[at:word.start()]), f"\\fB{plain(word[1] if word[1] is not None else word[2])}\\fR"]
        at = word.end()
    return line_of("".join(found) + plain(text[at:]))


def tag(name):
    """An item's name: placeholders in italics, and all else in bold."""
    found, at = [], 0
    for placeholder in PLACEHOLDER.finditer(name):
        found += [f"\\fB{plain(name[at:placeholder.start()])}\\fR" if at < placeholder.start() else "", f"\\fI{placeholder[0]}\\fR"]
        at = placeholder.end()
    return line_of("".join(found) + (f"\\fB{plain(name[at:])}\\fR" if name[at:] else ""))


def tagged(items, shown=tag):
    return [line for item in items for line in (".TP", shown(item.name), marked(item.text) if item.text else "\\&")]


def as_variables(items):
    return tagged(items, lambda name: f"\\fB{plain(name)}\\fR")


def as_references(items):
    """The pages of commands and tools."""
    items = [item._replace(name=item.name.removeprefix("replaycheck ")) for item in items if item.name != "help"]
    return tagged(items, lambda name: f"\\fB{plain(called(name))}\\fR(1)")


def listed(lines):
    """A list of items with a text each, or if none has a text a paragraph, indented."""
    if any(GAP.search(line.strip()) for line in lines):
        return tagged(items_of(lines))
    text = " ".join(line.strip() for line in lines)
    # Each text that is quoted is a line of its own.
    parts = re.split(r" (?=`)", text) if text.startswith("`") else [text]
    return [".RS 4", *[line for part in parts for line in (".br", marked(part))][1:], ".RE"]


def paragraph(part):
    """A paragraph, with its lists."""
    found, lines = [".PP"], part.split("\n")
    while lines:
        is_list = lines[0].startswith("  ")
        count = next((at for at, line in enumerate(lines) if line.startswith("  ") != is_list), len(lines))
        taken, lines = lines[:count], lines[count:]
        if not is_list:
            text = " ".join(taken)
            found += [*([".PP"] if found[-1] != ".PP" else []), marked(text if lines or not text[-1].isalnum() else text + ".")]
        elif all(line.startswith(("  replaycheck ", "  gdb", "  (gdb)")) for line in taken):
            found = [*(found if found != [".PP"] else []), *as_typed(line.strip() for line in taken)]
        else:
            found += listed(taken)
    return found


def synopsis(usages):
    """Each command line, which breaks between its arguments only."""
    lines = []
    for usage in usages:
        words = re.findall(r"\[(?:[^\[\]]|\[[^\]]*\])*\](?:\.\.)?|(?:--?[a-z-]+ [A-Z]+(?:\.\.)?)|\S+", usage)
        named = 2 if len(words) > 1 and re.fullmatch(r"[a-z]+", words[1]) else 1
        lines += [f'.SY "{" ".join(words[:named])}"', *(unbroken(word) for word in words[named:]), ".YS"]
    return lines


def unbroken(word):
    """An argument with its value, in one piece unless it is longer than half a line."""
    made = re.sub(r"(?<![\w-])--?[a-z][a-z-]*|\b[A-Z][A-Z]*\b|[^-A-Z]+|.", lambda piece: face(piece[0]), word)
    return line_of(made if len(word) > 36 else made.replace(" ", "\\ "))


def face(text):
    if PLACEHOLDER.fullmatch(text):
        return f"\\fI{text}\\fR"
    return f"\\fB{plain(text)}\\fR" if text.startswith("-") and len(text) > 1 else plain(text)


def as_typed(lines):
    return [".PP", ".RS 4", ".EX", *(line_of(plain(line)) for line in lines), ".EE", ".RE"]


# ---- what man_rows.py adds

def examples(name):
    lines = [".PP", marked(COPIED), *as_typed(COPY)]
    for example in EXAMPLES[name]:
        lines += [".PP", marked(example.says), *as_typed([f"$ {example.command}".replace("\n", "\n    "), *example.prints.splitlines()])]
        if example.status:
            lines += [".PP", f"It ends with status {example.status}."]
    return [part for line in lines for part in line.split("\n")]


def see_also(name, names):
    own = [called(other) for other in (names if not name else ["", *SEE_ALSO.get(name, ())])]
    refs = ", ".join(f"\\fB{plain(other)}\\fR(1)" for other in own if other != called(name))
    return [refs + ".", ".PP", f"The manual: \\fI{plain(MANUAL)}\\fR"]
