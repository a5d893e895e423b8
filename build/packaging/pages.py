"""The manual and other pages as HTML, by lowdown, for a reader of the package."""
import os
import re

from checkout import TOP
from packaging.source import output
from replaycheck.endings import Fault

STYLE = """\
<style>
body { max-width: 60em; margin: 2em auto; padding: 0 1em; font: 1em/1.5 system-ui, sans-serif; }
pre, code { font-family: ui-monospace, monospace; }
pre { overflow-x: auto; padding: .7em; border: 1px solid #8888; }
table { border-collapse: collapse; }
td, th { border: 1px solid #8888; padding: .2em .5em; vertical-align: top; text-align: left; }
:root { color-scheme: light dark; }
</style>
</head>
"""
# The pages of a release, of docs/.
SHIPPED = ("manual/*.md", "case-studies/*.md", "internals/glossary.md")
PICTURES = ("station.svg", "boot-twice.svg")
# What a page says of a checkout, and what it says instead in a release, where all is built and installed. Lines may break elsewhere.
IN_RELEASE = (
    ("Type the commands in `examples/firmware`, with the launcher `replaycheck` on the path. In a checkout: "
     "```sh PATH=$PWD:$PATH cd examples/firmware ``` With the package, whose launcher is on the path already:",
     "`replaycheck` is installed. Copy its examples, and type the commands in the copy:"),
    (" In a checkout the first command builds it, once: the report comes in about 2 minutes, its proof in 12 to 40.", ""),
    ("`./replaycheck` at the top of the repository builds the program first if it has to. If that build fails, it ends with 1 too, and "
     "says at which crate, and where its log is.", ""),
    ("| `--anew`, `--kept` | `page` | compiles the module again; uses only a kept one |", ""),
    (" `--unproved`, as the first argument of `./replaycheck` in a checkout, uses a build that is "
     "[tested and not proved](../../README.md#get-it).", ""),
    ("In a checkout `./replaycheck page` [builds it](../../page/README.md#how-it-is-built), in some four minutes.", ""),
)
LINK = re.compile(r'<a href="(?!#|https?:)([^"#]*)(#[^"]*)?">(.*?)</a>', re.S)


def sources():
    """The pages of a release, in Markdown as a reader of it needs them, by their paths below docs/."""
    docs = TOP / "docs"
    texts = {str(path.relative_to(docs)): path.read_text() for pattern in SHIPPED for path in sorted(docs.glob(pattern))}
    for old, new in IN_RELEASE:
        pattern = re.compile(re.sub(r"(?:\\ )+", r"\\s+", re.escape(old)))
        changed = {name: pattern.sub(lambda _: new, text) for name, text in texts.items()}
        if changed == texts:
            raise Fault(f"docs: no page of a release has the text that packaging/pages.py replaces: {old.strip()}")
        texts = changed
    return {name: re.sub(r"\n{3,}", "\n\n", text) for name, text in texts.items()}


def turned(text, *words):
    """A page of Markdown as lowdown turns it."""
    return output("lowdown", "-s", "--out-no-smarty", "-Thtml", *words, given=text.encode()).decode()


def manual():
    """The pages as HTML, with the pictures that they show, by their files' names."""
    texts = sources()
    made = {of_release(name): html(text, name, texts) for name, text in texts.items()}
    return made | {picture: (TOP / "examples/firmware" / picture).read_bytes() for picture in PICTURES}


def of_release(name):
    """What a page is called there. The index of a folder is its README in the repository."""
    return re.sub(r"README$", "index", name.removesuffix(".md")) + ".html"


def html(text, name, texts):
    """A page as HTML, whose links lead to pages of the release, or are none."""
    folder = os.path.dirname(name)

    def link(found):
        target = os.path.normpath(os.path.join(folder, found[1]))
        if target not in texts:
            return found[3]
        return f'<a href="{os.path.relpath(of_release(target), folder or ".")}{found[2] or ""}">{found[3]}</a>'

    title = re.search(r"^# (.+)$", text, re.M)[1]
    page = turned(text, "-m", f"title={title}")
    page = page.replace("</head>\n", STYLE, 1).replace("&#47;", "/")
    page = re.sub(r'(<h\d id=")([^"]+)(")', lambda heading: heading[1] + re.sub(r"[^\w-]", "", heading[2].lower()) + heading[3], page)
    for picture in PICTURES:
        page = re.sub(f'src="[^"]*{re.escape(picture)}"', f'src="{os.path.relpath(picture, folder or ".")}"', page)
    return LINK.sub(link, page)
