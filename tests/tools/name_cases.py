"""Names of functions, for test-tools: what they are in the source, which of them stay as they are, whatever c++filt does, and which call of
a trace is the place of a finding."""
import html
import json
import os
import shutil
import time
import xml.etree.ElementTree
from collections.abc import Iterator

from replaycheck import demangling
from replaycheck.findings import Call, Finding
from replaycheck.places import Place
from tool_rows import ADDR2LINE, Row

CXXFILT = next(filter(None, map(shutil.which, demangling.PROGRAMS)), None)
HASH = "17h2889a6c9ede13e8eE"
GAUGE, CORE, ALLOC = "Cs6L2BOqv174T_5gauge", "Cs8NwYtU1Mohg_4core", "CsbEht8wFNRx7_5alloc"  # crates, as rustc has named them
# Names of the symbol table, and what `c++filt -i` of binutils 2.40 prints for each.
NAMES = {
    "_ZN5gauge6LevelsC2Ej": "gauge::Levels::Levels(unsigned int)",
    "_ZN5gauge6LevelsD0Ev": "gauge::Levels::~Levels()",
    "_ZNK5gauge6Levels7highestEv": "gauge::Levels::highest() const",
    "_Znaj": "operator new[](unsigned int)",
    "_ZdlPvj": "operator delete(void*, unsigned int)",
    "_ZN5gauge3MapIiE3putERKi": "gauge::Map<int>::put(int const&)",
    "_ZN5gaugelsERNS_3LogEPKc": "gauge::operator<<(gauge::Log&, char const*)",
    "_ZZN5gauge3runEvENKUlvE_clEv": "gauge::run()::{lambda()#1}::operator()() const",
    "_ZThn8_N5gauge6LevelsD1Ev": "non-virtual thunk to gauge::Levels::~Levels()",
    "_ZN5gauge6Levels7highestEv.part.0": "gauge::Levels::highest() [clone .part.0]",
    f"_ZN5alloc3vec16Vec$LT$T$C$A$GT$4push{HASH}": "alloc::vec::Vec<T,A>::push",
    f"_ZN4core3fmt5write{HASH}.llvm.123456": "core::fmt::write",
    f"_ZN55_$LT$gauge..Levels$u20$as$u20$core..ops..drop..Drop$GT$4drop{HASH}": "<gauge::Levels as core::ops::drop::Drop>::drop",
    f"_RNvMs4_{GAUGE}NtB5_6Levels13into_iter_sum": "<gauge::Levels>::into_iter_sum",
    f"_RNvMsF_Nt{ALLOC}3vecINtB5_3VechE4push{GAUGE}": "<alloc::vec::Vec<u8>>::push",
    "_RNvCseulmdZsCeCG_7___rustc12___rust_alloc": "__rustc::__rust_alloc",
}
# Names that stay: of C, none, not whole, of bytes that c++filt takes for the end of a name, or too long for it.
STAY = ["main", "_Z", "_R", "_Reset", "_Z3foov|_Z3barv", "-n", "--help", "@file", "<&>\"'", "%s%n", "_Z1999999999aEv", "_Z" + "a" * 1000000,
        "_ZN5gauge1aEv" * 100000]
NO_TEXT = ["", "_Z3foov _Z3barv", "_Z3f\udcff_Z3barv", "_Z3f\xe9v", "_Z1f\x85v"]  # a report has other names in place of these
# Allocations as a trace has them, from the inside, and the calls from which their callers come.
BY_NEW = ["malloc", "_ZL8block_ofj", "_Znaj"]
KIT = f"_ZN63_$LT$gauge..Kit$u20$as$u20$core..alloc..global..GlobalAlloc$GT$5alloc{HASH}"
BY_RUST = ["malloc", KIT, "__rg_alloc", f"_ZN5alloc5alloc15exchange_malloc{HASH}", f"_ZN5alloc3vec16Vec$LT$T$C$A$GT$4push{HASH}"]
BY_NEW_RUST = ["malloc", f"_RNvX{GAUGE}NtB2_3KitNtNtNt{CORE}5alloc6global11GlobalAlloc5alloc", "_RNvCseulmdZsCeCG_7___rustc12___rust_alloc",
               f"_RNvMsF_Nt{ALLOC}3vecINtB5_3VechE4push{GAUGE}"]
# Traces, with the number of the call that is the place.
LEADS = [
    ("malloc", ["malloc", "words_of", "main"], 1), ("realloc", ["realloc", "words_of", "main"], 1), ("a function", ["provoke", "main"], 0),
    ("nothing else is left", ["free"], 0), ("operator new", [*BY_NEW, "_ZN5gauge6LevelsC2Ej", "main"], 3),
    ("an adopted operator new", ["_Znwj", "main"], 1),
    ("an error in what operator new calls", ["_ZL8block_ofj", "_Znaj", "main"], 0),
    ("operator delete", ["free", "_ZL9give_backPv", "_ZdaPvj", "_ZN5gauge6LevelsD2Ev", "main"], 3),
    ("operator new of a class", ["malloc", "_ZN5gauge6LevelsnwEj", "main"], 1),
    ("namespaces core and alloc of C++", ["_ZN4core5alloc4takeEj", "main"], 0),
    ("a namespace alloc below malloc", ["malloc", "_ZN5alloc4Pool4takeEj", "main"], 1),
    ("a Vec", [*BY_RUST, f"_ZN5gauge5entry{HASH}", "main"], 5), ("a Vec, mangled anew", [*BY_NEW_RUST, f"_RNv{GAUGE}5entry"], 4),
    ("an impl for a Vec", [f"_ZN70_$LT$alloc..vec..Vec$LT$T$C$A$GT$$u20$as$u20$core..ops..drop..Drop$GT$4drop{HASH}", "main"], 1),
    ("an impl for any type", [f"_ZN42_$LT$$RF$T$u20$as$u20$core..fmt..Debug$GT$3fmt{HASH}", "main"], 1),
    ("an impl for a slice", [f"_ZN48_$LT$$u5b$T$u5d$$u20$as$u20$core..fmt..Debug$GT$3fmt{HASH}", "main"], 1),
    ("an impl for a Vec, mangled anew", [f"_RNvXs1_Nt{ALLOC}7raw_vecINtB5_6RawVechENtNtNt{CORE}3ops4drop4Drop4drop{GAUGE}", "main"], 1),
    ("a method of a number, mangled anew", [f"_RNvYjNtNt{CORE}3cmp3Ord3max{GAUGE}", "main"], 1),
    ("a closure that core calls", [f"_RNCNv{GAUGE}5entry0B3_", f"_RINvNtNtNt{CORE}4iter8adapters3map8map_foldE", f"_RNv{GAUGE}5entry"], 0),
    ("the program's own impl for a Vec", [f"_ZN56_$LT$alloc..vec..Vec$LT$u8$GT$$u20$as$u20$gauge..Sum$GT$6sum_up{HASH}", "main"], 0),
    ("the same, mangled anew", [f"_RNvXs_{GAUGE}INtNt{ALLOC}3vec3VechENtB4_3Sum6sum_up", "main"], 0),
    ("the program's own type", [f"_ZN55_$LT$gauge..Levels$u20$as$u20$core..ops..drop..Drop$GT$4drop{HASH}", "main"], 0),
    ("a reference to it", [f"_ZN59_$LT$$RF$gauge..Levels$u20$as$u20$core..ops..arith..Add$GT$3add{HASH}", "main"], 0),
    ("only libraries", [f"_ZN4core3fmt5write{HASH}", f"_ZN5alloc3fmt6format{HASH}"], 0),
    ("a name that is long", ["_ZN4core" + "a" * 1000000, "main"], 0),
    ("a long name of Rust", ["_ZN9_$LT$" + "mut$u20$" * 100000 + HASH, "main"], 0),
    ("names with no end", ["_R", "_ZN", "_ZN17h", "main"], 0),
]
# What may stand in for c++filt, and does other things.
FILTERS = {"ends at once": "exit 3", "says nothing": "cat >/dev/null", "prints a line more": "echo c++filt; cat",
           "leaves out lines": "sed -u 1~3d",
           "changes numbers": "sed -u s/[0-9]/7/g", "ends soon": "head -n 1", "reads nothing": "exec <&-; exec sleep 9"}
# A report in which names are mangled, at addresses of packet.elf, and what `lines` makes of its frames.
FRAMES = """error 1: Invalid read of size 1
   at 0x00010044: _ZN5gauge3MapIiE3putERKi
   by 0x00010028: _ZN5gauge6LevelsC2Ej
leak 8 bytes in 1 blocks are definitely lost
   at 0x0001003c: _Znaj
   by 0x00010028: _ZN5gauge6LevelsC2Ej
"""
READABLE = """error 1: Invalid read of size 1
   at 0x00010044: gauge::Map<int>::put(int const&) (packet.s:29)
   by 0x00010028: gauge::Levels::Levels(unsigned int) (packet.s:17)
leak 8 bytes in 1 blocks are definitely lost
   at 0x0001003c: operator new[](unsigned int) (packet.s:27)
   by 0x00010028: gauge::Levels::Levels(unsigned int) (packet.s:17)
"""
REPORT = f"""step 3
state exited 0
input 0 of 0
output 0
{FRAMES}definitely lost: 8 bytes in 1 blocks
indirectly lost: 0 bytes in 0 blocks
possibly lost: 0 bytes in 0 blocks
still reachable: 0 bytes in 0 blocks
suppressed: 0 bytes in 0 blocks
ERROR SUMMARY: 1 errors from 1 contexts (suppressed: 0 from 0)
"""
SUPPRESSED = """{
   Invalid read of size 1
   Memcheck:Addr1
   fun:_ZN5gauge3MapIiE3putERKi
   fun:_ZN5gauge6LevelsC2Ej
}
{
   definitely lost
   Memcheck:Leak
   match-leak-kinds: definite
   fun:_Znaj
   fun:_ZN5gauge6LevelsC2Ej
}
"""
IN_LINES = """packet.s:29: warning: Invalid read of size 1 in gauge::Map<int>::put(int const&) [Addr1]
packet.s:29: note: at 0x00010044: gauge::Map<int>::put(int const&)
packet.s:17: note: by 0x00010028: gauge::Levels::Levels(unsigned int)
packet.s:17: warning: 8 bytes in 1 blocks are definitely lost in gauge::Levels::Levels(unsigned int) [Leak]
packet.s:27: note: at 0x0001003c: operator new[](unsigned int)
packet.s:17: note: by 0x00010028: gauge::Levels::Levels(unsigned int)
"""
AS_THEY_ARE = """packet.s:29: warning: Invalid read of size 1 in _ZN5gauge3MapIiE3putERKi [Addr1]
packet.s:29: note: at 0x00010044: _ZN5gauge3MapIiE3putERKi
packet.s:17: note: by 0x00010028: _ZN5gauge6LevelsC2Ej
packet.s:17: warning: 8 bytes in 1 blocks are definitely lost in _ZN5gauge6LevelsC2Ej [Leak]
packet.s:27: note: at 0x0001003c: _Znaj
packet.s:17: note: by 0x00010028: _ZN5gauge6LevelsC2Ej
"""
FORMS = {
    "json": '*"function": "gauge::Map<int>::put(int const&)", "place"*"function": "operator new[](unsigned int)"*',
    "sarif": '*"text": "Invalid read of size 1 in gauge::Map<int>::put(int const&)"*"name": "operator new[](unsigned int)"*',
    "valgrind-xml": "*<fn>gauge::Map&lt;int&gt;::put(int const&amp;)</fn>*<fn>operator new[](unsigned int)</fn>*",
    "junit": '*name="2: 8 bytes in 1 blocks are definitely lost in gauge::Levels::Levels(unsigned int)" file="packet.s" line="17">*',
    "gcc": IN_LINES, "github": "*,line=17,title=8 bytes in 1 blocks are definitely lost in gauge%3A%3ALevels%3A%3ALevels(unsigned int)::*",
}
PRINTS = "#!/bin/sh\ncase $1 in run) exec cat mangled.report ;; --version) echo 1 ;; *) echo clean to step 3: yes ;; esac\n"
COUNTS = "#!/bin/sh\necho >>starts\nexec {} \"$@\"\n"
MISSING = "no names as in the source: cannot run no-c++filt: No such file or directory; names as in the source need c++filt, of *\n"


def rows() -> Iterator[Row]:
    """Command lines over that report."""
    lines, report, needs = ["lines", "packet.elf"], REPORT.encode(), [*ADDR2LINE, CXXFILT or "c++filt"]
    run, prints = ["run", "packet.elf", "--error-exitcode=7"], {"REPLAYCHECK": "./prints"}
    yield Row("names: lines", lines, 0, REPORT.replace(FRAMES, READABLE), given=report, needs=needs)
    yield Row("names: lines --no-demangle", [*lines, "--no-demangle"], 0, "*at 0x00010044: _ZN5gauge3MapIiE3putERKi (packet.s:29)\n*",
              given=report, needs=ADDR2LINE)
    yield Row("names: lines of a diff", lines, 0, "-   by 0x00010028: gauge::Levels::Levels(unsigned int) (packet.s:17)\n",
              given=b"-   by 0x00010028: _ZN5gauge6LevelsC2Ej\n", needs=needs)
    yield Row("names: lines of a sweep", lines, 0, "+ Invalid read of size 1 at 0x00010044: gauge::f() (packet.s:29), by g(), by main\n",
              given=b"+ Invalid read of size 1 at 0x00010044: _ZN5gauge1fEv, by _Z1gv, by main\n", needs=needs)
    yield Row("names: lines without c++filt", lines, 0, "*at 0x00010044: _ZN5gauge3MapIiE3putERKi (packet.s:29)\n*",
              f"*replaycheck lines: {MISSING}*", given=report, needs=ADDR2LINE, environment={"CXXFILT": "no-c++filt"})
    yield Row("names: a long one in lines", lines, 0, f"*{'a' * 1000000} (packet.s:29)\n   by 0x00010028: gauge::f() (packet.s:17)\n*",
              given=f"   at 0x00010044: _Z{'a' * 1000000}\n   by 0x00010028: _ZN5gauge1fEv\n".encode(), needs=needs)
    yield Row("names: suppressions have those of the symbol table", ["suppress"], 0, SUPPRESSED, given=report)
    for name, told in FORMS.items():
        yield Row(f"names: as {name}", [*run, f"--format={name}"], 7, told, needs=needs, environment=prints)
    for option in ("--no-demangle", "--demangle=no"):
        yield Row(f"names: {option}", [*run, "--format=gcc", option], 7, AS_THEY_ARE, needs=ADDR2LINE, environment=prints)
    yield Row("names: --demangle=yes", [*run, "--format=gcc", "--demangle=yes"], 7, IN_LINES, needs=needs, environment=prints)
    yield Row("names: no c++filt", [*run, "--format=gcc"], 7, AS_THEY_ARE, f"*replaycheck run: {MISSING}*", needs=ADDR2LINE,
              environment={**prints, "CXXFILT": "no-c++filt"})
    yield Row("names: a report as it is", [*run, "--demangle=no"], 7, REPORT, environment=prints)
    yield Row("names: text isn't such a format", [*run, "--demangle=yes"], 2, "", "*--demangle=yes goes with a --format that isn't*")
    yield Row("names: yes and no", [*run, "--format=gcc", "--no-demangle", "--demangle=yes"], 2, "", "*--demangle=yes at once\n*")
    yield Row("names: neither yes nor no", [*run, "--format=gcc", "--demangle=maybe"], 2, "", "*invalid choice: 'maybe'*")
    for pattern, status in (("_ZN5gauge*", 0), ("gauge::*", 7)):
        words = ["run", "mangled.elf", f"--supp={pattern[:2]}.supp", "--error-exitcode=7"]
        yield Row(f"names: a suppression of {pattern}", words, status, None)


def leads():
    """The place of a finding with each trace."""
    for label, symbols, place in LEADS:
        trace = [Call(f"0x{at:08x}", it, it, Place(it, "a.c", "a.c", at + 1)) for at, it in enumerate(symbols)]
        came = trace.index(Finding("Leak", True, "text", 1, trace).lead())
        yield f"the place of a finding: {label}", came != place and f"call {came}, not {place}"
    inlined = [Call("0x00010000", it, it, Place(it, "a.c", "a.c", 1)) for it in ("call_environment", "malloc")]
    trace = [*inlined, Call("0x00010004", "words_of", "words_of", None), Call("0x00010008", "main", "main", Place("main", "a.c", "a.c", 2))]
    yield "the place of a finding: an inlined call, and one without a line", Finding("Leak", True, "text", 1, trace).lead() is not trace[3]


def endless():
    """A name of 400 letters that stands for a text with 2 to the power of 40 parts."""
    digits = "0123456789ABCDEFGHIJKLMNOPQRSTUVWXYZ"
    parts = [f"S{digits[it // 36] if it >= 36 else ''}{digits[it % 36]}_" for it in range(40)]
    return "_Z1f1AIiiE" + "".join(f"S_I{it}{it}E" for it in parts)


def stood_in(tests, line, names):
    """What a Demangler makes of names while a line of the shell stands for c++filt, and its fault."""
    there = demangling.Demangler()
    os.environ["CXXFILT"], patience = tests.program("filter", f"#!/bin/sh\n{line}\n"), demangling.PATIENCE
    demangling.PATIENCE = 1
    there.learn(names)
    demangling.PATIENCE = patience
    del os.environ["CXXFILT"]
    return [there.name(it) for it in names], there.fault


def readings(tests):
    """What is read of c++filt: its own answers, and those of what stands in for it."""
    names, all_names = demangling.Demangler(), [*NAMES, *STAY, *NO_TEXT]
    names.learn(all_names)
    yield "names in the source", names.fault or [it for it in all_names if names.name(it) != NAMES.get(it, it)][:3]
    names.learn(f"_ZN5gauge5f{it:04}Ev" for it in range(10000))
    yield "10,000 names", [it for it in range(10000) if names.name(f"_ZN5gauge5f{it:04}Ev") != f"gauge::f{it:04}()"][:3]
    for label, line in FILTERS.items():
        came, fault = stood_in(tests, line, all_names)
        wrong = [it for it, told in zip(all_names, came) if told not in (it, NAMES.get(it))]
        yield f"names by a c++filt that {label}", wrong[:3] or not fault and "no fault"
    begun = time.monotonic()
    came, fault = stood_in(tests, f'exec {CXXFILT} "$@"', ["_Znaj", endless(), "_Znwj"])
    is_well = came == [NAMES["_Znaj"], endless(), "_Znwj"] and "no answer" in str(fault) and time.monotonic() - begun < 10
    yield "a name that stands for a text without end", not is_well and (fault, time.monotonic() - begun)


def hostile(tests):
    """Each format of a report with names that stay between others: all names are there, in order, and so they are in `lines`."""
    symbols = [it for pair in zip(STAY, list(NAMES) * 2) for it in pair]
    frames = "".join(f"   {'by' if at else 'at'} 0x{0x10000 + at % 16 * 4:08x}: {it}\n" for at, it in enumerate(symbols))
    (tests.room / "mangled.report").write_text(REPORT.replace(FRAMES, f"error 1: Invalid read of size 1\n{frames}"))
    wanted, came = [NAMES.get(it, it) for it in symbols], {}
    for name in FORMS:
        told = tests.run(["run", "packet.elf", f"--format={name}"], REPLAYCHECK="./prints")[1]
        if name == "json":
            came[name] = [it["function"] for it in json.loads(told)["errors"][0]["trace"]]
        elif name == "sarif":
            flow = json.loads(told)["runs"][0]["results"][0]["codeFlows"][0]["threadFlows"][0]["locations"]
            came[name] = [it["location"]["logicalLocations"][0]["name"] for it in flow]
        elif name == "valgrind-xml":
            came[name] = [it.text for it in xml.etree.ElementTree.fromstring(told).iter("fn")]
        elif name == "gcc":
            came[name] = [it.partition(" note: ")[2].split(": ", 1)[1] for it in told.splitlines()[1:]]
        else:
            text = told.replace("%25", "%").replace("../", "") if name == "github" else html.unescape(told)
            came[name] = [it for it in wanted if f" {it} (packet.s:" in text]
    told = tests.run(["lines", "packet.elf"], (tests.room / "mangled.report").read_bytes())[1]
    came["lines"] = [it[17:].rpartition(" (packet.s:")[0].strip() for it in told.splitlines() if "(packet.s:" in it]
    for name, names in came.items():
        yield f"odd names, as {name}", names != wanted and f"{[it[:60] for it in names]}"


def starts(tests):
    """How often c++filt is started for a report: not at all where no name is mangled, and otherwise once. The fingerprints of SARIF don't
    depend on it."""
    noted, prints = tests.room / "starts", {"REPLAYCHECK": "./prints", "CXXFILT": tests.program("counts", COUNTS.format(CXXFILT))}
    for label, text, count in (("mangled", REPORT, 1), ("plain", REPORT.replace("_Z", "z"), 0)):
        (tests.room / "mangled.report").write_text(text)
        for words in (["lines", "packet.elf"], *(["run", "packet.elf", f"--format={it}"] for it in FORMS)):
            noted.write_text("")
            tests.run(words, (text * 50).encode(), **prints)
            came = len(noted.read_text())
            yield f"starts of c++filt, {label} names, {' '.join(words)}", came != count and f"{came} starts"
    (tests.room / "mangled.report").write_text(REPORT)
    told = [json.loads(tests.run(["run", "packet.elf", "--format=sarif", *more], **prints)[1]) for more in ([], ["--no-demangle"])]
    marks = [[it["partialFingerprints"] for it in run["runs"][0]["results"]] for run in told]
    yield "the same fingerprints with any names", marks[0] != marks[1] and marks
