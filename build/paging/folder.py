"""The page as a folder to serve and as one file, from its sources, the program's module and the examples."""
import base64
import gzip
import hashlib
import json
import re

from checkout import TOP
from replaycheck import allocators, file_heaps, replies
from replaycheck.adopting import heap_names, outside
from replaycheck.adopting.regions import HEAPS, MOST_STACK, NAMES, STACK_ENDS
from replaycheck.endings import Fault
from replaycheck.exploring import outcomes
from replaycheck.guest import halves, regions, rv32
from replaycheck.options import FURTHEST_STEP, LAST_STEP
from replaycheck.programs import ISAS
from replaycheck.recording.front import recorded
from replaycheck.refusals import WORDS
from replaycheck.reports import LEAK_KINDS, TEXTS

from .module import PROGRAM
from .scripts import one_script

SOURCES, EXAMPLES = TOP / "page", TOP / "examples"
MAIN, WORKER, RESOURCES, ONE_FILE = "main.js", "engine/worker.js", "engine/resources.js", "engine/one-file.js"
INLINED = "engine/inlined.js"
POLICY = re.compile(r'(<meta http-equiv="Content-Security-Policy" content=")[^"]*(">)')
STYLE = '<link rel="stylesheet" href="page.css">'
SCRIPT = f'<script type="module" src="{MAIN}"></script>'
# Where the first block of a heap begins, from the region's begin on. Its first byte becomes accessible by the first call for a block.
BEFORE_BLOCKS = 16
# Which regions heap and stack may have, and how that is said.
REGION_RULES = ("HEAP_SIZE", "HEAP_STEP", "LEAST_HEAP", "GREATEST_HEAP", "HEAP_WANTED", "STACK_STEP", "LEAST_STACK", "STACK_WANTED")

# How long replies are.
REPLY_RULES = ("REFUSED", "LOOKS", "WHOLE", "LISTS", "LIST_ENDS", "REPORT", "SUMMARY")


def constant(name, value):
    return f"export const {name} = {json.dumps(value, ensure_ascii=True)};\n"


def instructions():
    """What the page knows of instructions: opcodes and words by their names, the names by the forms of operands, the names of registers,
    and the bits of immediates of instructions of 16 bits."""
    opcodes = {row.form: row.opcode for row in rv32.TABLE if row.form != "upper"}
    named = {form: rv32.by_number(form) for form in opcodes if form != "word"}
    return (("OPCODES", {**opcodes, "lui": rv32.LUI, "auipc": rv32.AUIPC, "atomic": rv32.ATOMIC, "system": rv32.SYSTEM}),
            ("FLOATING", rv32.FLOAT), ("WHOLE_WORDS", {row.name: row.word for row in rv32.TABLE if row.form == "word"}),
            ("NO_OPS", {2: halves.NOP, 4: rv32.NOP}), ("REGISTERS", rv32.NAMES), ("ORDERS", [*rv32.ORDERS]), ("INSTRUCTIONS", named),
            ("CONTROL_REGISTERS", rv32.CONTROL_REGISTERS), ("FIRST_CONSTANT", rv32.FIRST_CONSTANT),
            ("HALF_IMMEDIATES", halves.IMMEDIATES), ("HALF_OPERATIONS", halves.BETWEEN))


def facts(module):
    """What the page has in common with the tools."""
    return "".join(constant(name, value) for name, value in (
        ("LAST_STEP", LAST_STEP), ("FURTHEST_STEP", FURTHEST_STEP), ("ISAS", ISAS), ("REFUSALS", WORDS), ("LEAK_KINDS", LEAK_KINDS),
        ("ERROR_KINDS", [(pattern.pattern, name) for pattern, name in TEXTS]),
        ("BADNESS", outcomes.BADNESS), ("FRAMES_TOLD", outcomes.FRAMES_TOLD), ("RUNNING", outcomes.RUNNING),
        ("HEAP_NAMES", allocators.HEAP), ("OTHER_HEAPS", sorted(heap_names.OTHERS)),
        *((name, getattr(regions, name)) for name in REGION_RULES),
        ("USUAL_HEAP", regions.USUAL_REGIONS.heap), ("USUAL_STACK", regions.USUAL_REGIONS.stack),
        ("HEAPS", HEAPS), ("MOST_STACK", MOST_STACK), ("STACK_ENDS", STACK_ENDS), ("STACK_NAMES", NAMES), ("DEVICES", outside.DEVICES),
        ("HEAP_CHOICES", file_heaps.choices()), ("BEFORE_BLOCKS", BEFORE_BLOCKS),
        *instructions(), *((name, getattr(replies, name)) for name in REPLY_RULES),
        ("MODULE_SUM", hashlib.sha256(module).hexdigest())))


def encoded(path):
    return base64.b64encode(path.read_bytes()).decode()


def examples():
    """The examples that the page offers, with their files, and the text of their sources."""
    made, sources = [], {}
    for given in json.loads((SOURCES / "examples.json").read_text()):
        optional = {role: given[role] for role in ("goal", "isa", "sources") if role in given}
        example = {"name": given["name"], "about": " ".join(given["about"]), **optional}
        for role in ("program", "input"):
            if role in given:
                path = EXAMPLES / given[role]
                example[role], example[f"{role}Bytes"] = path.name, encoded(path)
        made.append(example)
        sources.update((path, (EXAMPLES / path).read_text()) for path in given.get("sources", ()))
    return constant("EXAMPLES", made) + constant("SOURCES", sources)


def modules_of(module):
    """The modules of the page by their paths: those of its folder, and those that are made. A folder `tests` is no part of it."""
    paths = [path.relative_to(SOURCES) for path in sorted(SOURCES.rglob("*.js"))]
    found = {path.as_posix(): (SOURCES / path).read_text() for path in paths if "tests" not in path.parts}
    return {**found, "facts.js": facts(module), "examples.js": examples()}


def inlined(packed, worker):
    """What the page of one file has in the place of files beside it."""
    return constant("MODULE", packed) + constant("WORKER", worker)


def write_folder(folder, module):
    """The folder to serve."""
    modules = modules_of(module)
    modules.pop(ONE_FILE)
    files = {name: text.encode() for name, text in modules.items()}
    for name in ("index.html", "page.css"):
        files[name] = (SOURCES / name).read_bytes()
    files["replaycheck.wasm"] = module
    for name, content in files.items():
        (folder / name).parent.mkdir(parents=True, exist_ok=True)
        (folder / name).write_bytes(content)


def front_page():
    """The front page: the recording of the example, by the program from whose text the module is built."""
    return recorded(TOP / "cli/bin/replaycheck-explore", EXAMPLES / "firmware", PROGRAM)


def source_of(text):
    """What a policy names an inline text by."""
    return "'sha256-" + base64.b64encode(hashlib.sha256(text.encode()).digest()).decode() + "'"


def replaced(page, old, new):
    if page.count(old) != 1:
        raise Fault(f"page/index.html: the line isn't there exactly once: {old}")
    return page.replace(old, new)


def one_file(module):
    """The page with all in it."""
    modules = modules_of(module)
    worker = one_script(WORKER, modules)
    packed = base64.b64encode(gzip.compress(module, 9, mtime=0)).decode()
    modules[INLINED] = inlined(packed, worker)
    modules[RESOURCES] = modules.pop(ONE_FILE)
    script = one_script(MAIN, modules).replace("</script", "<\\/script").replace("<!--", "<\\!--")
    style = (SOURCES / "page.css").read_text()
    policy = (f"default-src 'none'; script-src {source_of(script)} 'wasm-unsafe-eval' blob:; style-src {source_of(style)}; "
              "worker-src blob:; img-src data:; base-uri 'none'; form-action 'none'")
    page, count = POLICY.subn(lambda found: found[1] + policy + found[2], (SOURCES / "index.html").read_text())
    if count != 1:
        raise Fault("page/index.html: not exactly one policy")
    page = replaced(page, STYLE, f"<style>{style}</style>")
    return replaced(page, SCRIPT, f"<script>{script}</script>").encode()
