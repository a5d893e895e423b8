"""The rows of `test-exec`: a label, the arguments of `replaycheck exec`, and what comes of them."""
from typing import NamedTuple

from tool_rows import REGIONS

QUIET = ["-q", "--error-exitcode=9"]
MANY = 4294967295
CTEST = ["--log-file=ctest.log", "-q", "--tool=memcheck", "--leak-check=yes", "--show-reachable=yes", "--num-callers=50"]


class Row(NamedTuple):
    """What is typed, the status, standard output, and texts that standard error has in turn; with none of them it is empty."""

    label: str
    words: list[str]
    status: int
    out: str = "hi\n"
    said: list[str] = []
    given: bytes = b""
    more: dict[str, str] = {}


LOUD = "hi\n" + "\0" * 4093


def statuses(first: list[str], kind: str) -> list[Row]:
    """Statuses, by the quiet path without Python and by the one with it."""
    return [
        Row(f"{kind}: exits with 0", [*first, "says.elf"], 0),
        Row(f"{kind}: exits with 3", [*first, "fails.elf"], 3),
        Row(f"{kind}: an error", [*first, "writes-badly.elf"], 9, said=["== Invalid write of size 4\n", "==    at 0x10018: ???"]),
        Row(f"{kind}: a leak", [*first, "leaks.elf"], 9, said=["== 8 bytes in 1 blocks are definitely lost in loss record 1 of 1\n"]),
        Row(f"{kind}: an illegal instruction", [*first, "illegal.elf"], 132, said=["of signal 4 (SIGILL)"]),
        Row(f"{kind}: EBREAK", [*first, "break.elf"], 133, said=["of signal 5 (SIGTRAP)"]),
        Row(f"{kind}: a misaligned jump", [*first, "misaligned.elf"], 135, said=["of signal 7 (SIGBUS)"]),
        Row(f"{kind}: an instruction at a half", [*first, "half.elf"], 135, said=["of signal 7 (SIGBUS)"]),
        Row(f"{kind}: the same for rv32imc", [*first, "--isa=rv32imc", "half.elf"], 133, said=["of signal 5 (SIGTRAP)"]),
        Row(f"{kind}: atomic instructions", [*first, "--isa=rv32imac", "atomic.elf"], 4),
        Row(f"{kind}: atomic instructions for rv32imc", [*first, "--isa=rv32imc", "atomic.elf"], 132, said=["of signal 4 (SIGILL)"]),
        Row(f"{kind}: one at no multiple of 4", [*first, "--isa=rv32imac", "odd.elf"], 135,
            said=["of signal 7 (SIGBUS)", " Atomic instruction whose address is no multiple of 4, at 0x0001001c\n"]),
        Row(f"{kind}: control registers", [*first, "--isa=rv32imc", "controls.elf"], 7),
        Row(f"{kind}: control registers for rv32im", [*first, "controls.elf"], 132, said=["of signal 4 (SIGILL)"]),
        Row(f"{kind}: it idles after a counter", [*first, "--isa=rv32imac", "--step=5000", "--idle-exitcode=3", "rests.elf"], 3),
        Row(f"{kind}: a loop of a wait is no idle one", [*first, "--isa=rv32imac", "--step=5000", "--idle-exitcode=3", "waits.elf"], 124,
            said=["still running at step 5000\n"]),
        Row(f"{kind}: an instruction set that there isn't", [*first, "--isa", "rv32gc", "says.elf"], 125, "", ["rv32gc"]),
        Row(f"{kind}: a null call", [*first, "null.elf"], 139, said=["Jump to the invalid address", "of signal 11 (SIGSEGV)"]),
        Row(f"{kind}: it hangs", [*first, "--step=5000", "hangs.elf"], 124, said=["still running at step 5000\n"]),
        Row(f"{kind}: it idles", [*first, "--step=5000", "idles.elf"], 124,
            said=["replaycheck exec: in a jump to itself (--idle-exitcode=0 passes that, as a failed assert that loops) at step 5000\n"]),
        Row(f"{kind}: it idles after an error", [*first, "--step=5000", "rests-badly.elf"], 9, said=["Invalid write of size 4"]),
        Row(f"{kind}: it may idle, and has an error", [*first, "--idle-exitcode=0", "rests-badly.elf"], 9,
            said=["Invalid write of size 4"]),
        Row(f"{kind}: it may idle", [*first, "--idle-exitcode=0", "idles.elf"], 0),
        Row(f"{kind}: input", [*first, "reads.elf"], 0, "abc", given=b"abc"),
        Row(f"{kind}: input by --input", [*first, "--input", "hi.txt", "says-and-reads.elf"], 0, "hi\nhi\n"),
        Row(f"{kind}: much output", [*first, "loud.elf"], 0, LOUD * 17),
        Row(f"{kind}: too much output", [*first, "--most-output=65536", "loud.elf"], 123, LOUD * 16,
            ["65536 bytes of output are all there is room for (--most-output); writes refused: 1\n"]),
        Row(f"{kind}: no room at all", [*first, "--most-output", "0", "says.elf"], 123, "", ["replaycheck exec: 0 bytes of output are"]),
        Row(f"{kind}: a number of bytes that isn't one", [*first, "--most-output=-1", "says.elf"], 125, "", ["--most-output"]),
        Row(f"{kind}: no byte moved", [*first, "--most-moved=0", "says.elf"], 125, "", ["--most-moved"]),
        Row(f"{kind}: one byte a call", [*first, "--most-moved=1", "says.elf"], 0, "h"),
        Row(f"{kind}: standard error", [*first, "says-on-2.elf"], 0, said=["hi\n"]),
        Row(f"{kind}: both in turn", [*first, "says-in-turn.elf"], 0, "hi\nh", ["hihi\n"]),
        Row(f"{kind}: the log begins a line", [*first, "says-half-on-2.elf"], 9, said=["hi\n==", "Invalid write"]),
        Row(f"{kind}: and so does what is said of a hang", [*first, "--step=5000", "hangs-after-half.elf"], 124,
            said=["hi\nreplaycheck exec: still running"]),
        Row(f"{kind}: a log in a file leaves it", [*first, "--report=half.report", "says-half-on-2.elf"], 9, said=["hi"]),
        Row(f"{kind}: one write moves all", [*first, "writes-much.elf"], 0, "hi\n" + "\0" * 4094),
        Row(f"{kind}: one write of 2^32 - 1 bytes", [*first, "writes-all.elf"], 0, "hi\n" + "\0" * 7165),
        Row(f"{kind}: one read of 2^32 - 1 bytes", [*first, "reads-all.elf"], 0, "x" * 5000, given=b"x" * 5000),
        Row(f"{kind}: the first 4,096 are moved in any case", [*first, "writes-past.elf"], 9, "\0" * 4096,
            ["Syscall param write(buf) points to unaddressable byte(s)"]),
        Row(f"{kind}: an unknown call", [*first, "calls-unknown.elf"], 0, said=["replaycheck: call 66 isn't known (1 time)\n"]),
        Row(f"{kind}: unknown calls", [*first, "calls-unknowns.elf"], 0,
            said=["replaycheck: call 66 isn't known (2 times)\nreplaycheck: call 222 isn't known (1 time)\n"]),
        Row(f"{kind}: endless recursion", [*first, "recurses.elf"], 139,
            said=["replaycheck exec: Stack overflow in thread #1: can't grow stack to 0x"]),
        Row(f"{kind}: too much memory", [*first, "--memory-limit=1", "recurses.elf"], 122,
            said=["replaycheck exec: more than 1 MiB of memory are needed at step 65536 (--memory-limit)\n"]),
        Row(f"{kind}: no limit of memory", [*first, "--memory-limit=0", "recurses.elf"], 139, said=["Stack overflow"]),
        Row(f"{kind}: a stack pointer below", [*first, "--step=140000", "falls.elf"], 139, "", ["can't grow stack to 0x7e000000\n"]),
        Row(f"{kind}: one step before it is looked at", [*first, "--step=65535", "falls.elf"], 124, "", ["at step 65535\n"]),
        Row(f"{kind}: a stack pointer 64 MiB below", [*first, "--step=140000", "falls-just.elf"], 139, "", ["stack to 0x7b000000\n"]),
        Row(f"{kind}: one further below", [*first, "--step=140000", "falls-far.elf"], 124, "", ["at step 140000\n"]),
        Row(f"{kind}: one with undefined bits", [*first, "--step=140000", "falls-undefined.elf"], 124, "", ["at step 140000\n"]),
        Row(f"{kind}: one in the heap's region", [*first, "--step=140000", "--stack-region=0x70000000..0x70100000",
            "--heap-region=0x50000000", "falls-elsewhere.elf"], 124, "", ["at step 140000\n"]),
        Row(f"{kind}: the same below another heap", [*first, "--step=140000", "--stack-region=0x70000000..0x70100000",
            "--heap-region=0x20000000", "falls-elsewhere.elf"], 139, "", ["stack to 0x6ff00000\n"]),
        Row(f"{kind}: a stack of its own", [*first, "--step=200000", "own-stack.elf"], 124, said=["still running at step 200000\n"]),
        Row(f"{kind}: no such file", [*first, "none.elf"], 127, "",
            ["cannot read none.elf\n", "replaycheck exec: none.elf: No such file or directory\n"]),
        Row(f"{kind}: no program", [*first, "hi.txt"], 126, "", ["image refused 20\n", "replaycheck exec: hi.txt: no ELF file\n"]),
        Row(f"{kind}: a name that isn't UTF-8", [*first, "\udcff.elf"], 125, "", ["replaycheck exec: not UTF-8: "]),
        Row(f"{kind}: an option that isn't UTF-8", [*first, "--input", "\udcff", "says.elf"], 125, "", ["replaycheck exec: not UTF-8: "]),
        Row(f"{kind}: instructions of 16 bits, and no --isa", [*first, "compressed.elf"], 135,
            said=["of signal 7 (SIGBUS)", "==  The file has instructions of 16 bits: --isa rv32imac reads it for them\n"]),
        Row(f"{kind}: suppressions", [*first, "--supp", "known.supp", "writes-badly.elf"], 0),
        Row(f"{kind}: bad suppressions", [*first, "--supp", "hi.txt", "says.elf"], 126, "", ["suppressions refused 13 at line 1\n"]),
        Row(f"{kind}: a patch", [*first, "--patch", "0x00010400=0x0a6f6821", "says.elf"], 0, "!ho"),
        Row(f"{kind}: a bad patch", [*first, "--patch=0x1=2", "says.elf"], 126, "", ["patch refused 4: 0x1=2\n"]),
    ]


UNSEEN = "errors of the heap can't be found"
UNMAPPED = f"{UNSEEN} in blocks of these (see `replaycheck adopt`, --not-heap): "


def heaps(first: list[str], kind: str) -> list[Row]:
    """Heaps that are seen and that aren't, by both paths."""
    def unseen(name: str, functions: str) -> list[str]:
        return [f"replaycheck exec: {name}: {UNMAPPED}{functions}\n"]
    return [
        Row(f"{kind}: a file without symbols", [*first, "stripped.elf"], 9,
            said=[f"replaycheck exec: stripped.elf: {UNSEEN}: the file has no"]),
        Row(f"{kind}: --no-require-heap", [*first, "--no-require-heap", "stripped.elf"], 0),
        Row(f"{kind}: a heap of another name", [*first, "zephyr.elf"], 9, said=unseen("zephyr.elf", "k_malloc")),
        Row(f"{kind}: --not-heap", [*first, "--not-heap=none,k_malloc", "zephyr.elf"], 0),
        Row(f"{kind}: another one is none", [*first, "--not-heap=k_mallo,k_malloc_", "zephyr.elf"], 9,
            said=unseen("zephyr.elf", "k_malloc")),
        Row(f"{kind}: such a heap beside malloc", [*first, "both.elf"], 9, said=unseen("both.elf", "pvPortMalloc")),
        Row(f"{kind}: a name that speaks of blocks", [*first, "pool.elf"], 9, said=unseen("pool.elf", "pool_alloc")),
        Row(f"{kind}: one beside malloc", [*first, "pool-beside.elf"], 0),
        Row(f"{kind}: a heap that is mapped", [*first, "mapped.elf"], 0),
        Row(f"{kind}: one that is marked as mapped", [*first, "marked.elf"], 0),
        Row(f"{kind}: reserved names, and a word", [*first, "reserved.elf"], 0),
        Row(f"{kind}: the C library's own part beside malloc", [*first, "newlib.elf"], 0),
        Row(f"{kind}: the C library's own part", [*first, "bare-newlib.elf"], 9, said=unseen("bare-newlib.elf", "_malloc_r")),
        Row(f"{kind}: Rust's own heap", [*first, "rust.elf"], 9, said=["__rust_alloc"]),
        Row(f"{kind}: five functions", [*first, "five.elf"], 9,
            said=unseen("five.elf", "take_1_alloc, take_2_alloc, take_3_alloc, take_4_alloc, ..")),
    ]


def regions(first: list[str], kind: str) -> list[Row]:
    """Other regions of heap and stack, by both paths."""
    return [
        Row(f"{kind}: with regions", [*first, *REGIONS, "placed.elf"], 9, "",
            ["== Conditional jump or move depends", "==  Address 0x90000018 is 0 bytes after a block of size 8 alloc'd"]),
        Row(f"{kind}: without them", [*first, "placed.elf"], 126, "", ["image refused 29\n"]),
        Row(f"{kind}: a heap region that can't be", [*first, "--heap-region=0", "says.elf"], 125, "", ["0x10000000 from 0x10000000"]),
        Row(f"{kind}: regions that overlap", [*first, "--heap-region=0x70000000", "--stack-region=0x7f000000..0x80000000", "says.elf"],
            125, "", ["heap region and stack region overlap: --heap-region 0x70000000 --stack-region 0x7f000000..0x80000000\n"]),
    ]


def published(name: str, rows: list[tuple[str, list[str], int, list[str]]]) -> list[Row]:
    """Logs in a format that other programs publish: of each what it says, by the status with which `exec` ends."""
    return [Row(f"{name}: {label}", [*QUIET, f"--log-format={name}", *words], status, OUTPUT.get(words[-1], "hi\n"), said)
            for label, words, status, said in rows]


OUTPUT = {"loud.elf": LOUD * 16}
JUNIT, SARIF, FAILED = 'tests="1" failures="{}" errors="{}" skipped="0"', '"executionSuccessful": {}, "exitCode": {}', "exit status 3"
CASE = ['name="exit status {0}">\n', '<failure type="Status" message="exit status {0}{1}">exit status {0}{1}</failure>']
IDLE, UNLISTED = ["--step=5000", "--idle-exitcode={}", "idles.elf"], ["--show-leak-kinds=none", "leaks.elf"]
PUBLISHED = [
    *published("junit", [
        ("a failed test", ["fails.elf"], 3, [JUNIT.format(1, 0), *(it.format(3, "") for it in CASE)]),
        ("lost output", ["--most-output=65536", "loud.elf"], 123,
         [JUNIT.format(1, 0), *(it.format(123, ": output was lost") for it in CASE)]),
        ("a rest that passes", [*IDLE[:1], IDLE[1].format(0), IDLE[2]], 0, [JUNIT.format(0, 0), 'name="no error and no leak"/>']),
        ("a rest that fails", [*IDLE[:1], IDLE[1].format(3), IDLE[2]], 3, [JUNIT.format(1, 0), CASE[0].format(3)]),
        ("it hangs", ["--step=5000", "hangs.elf"], 124, [JUNIT.format(0, 1), '<error type="Running"']),
        ("a rest that isn't asked for", ["--step=5000", "idles.elf"], 124, [JUNIT.format(0, 1), '<error type="Running"']),
        ("an error", ["writes-badly.elf"], 9, [JUNIT.format(1, 0), '<failure type="Addr4"']),
        ("an error that ends with 0", ["--error-exitcode=0", "writes-badly.elf"], 0, [JUNIT.format(1, 0), '<failure type="Addr4"']),
        ("a leak that isn't listed", UNLISTED, 9, [JUNIT.format(1, 0), CASE[0].format(9)]),
        ("a stop", ["illegal.elf"], 132, [JUNIT.format(1, 0), '<failure type="Stop"']),
        ("an unseen heap", ["--require-heap", "stripped.elf"], 9, [JUNIT.format(0, 1), '<error type="Heap"']),
        ("nothing wrong", ["says.elf"], 0, [JUNIT.format(0, 0), 'name="no error and no leak"/>'])]),
    *published("sarif", [
        ("a failed test", ["fails.elf"], 3,
         [SARIF.format("false", 3), f'"level": "error", "message": {{"text": "{FAILED}"}}', '"results": []']),
        ("an error", ["writes-badly.elf"], 9, [SARIF.format("false", 9) + "}", '"ruleId": "Addr4"']),
        ("a rest that passes", [*IDLE[:1], IDLE[1].format(0), IDLE[2]], 0, [SARIF.format("true", 0) + "}", '"results": []']),
        ("an unseen heap", ["--require-heap", "stripped.elf"], 9, [SARIF.format("false", 9), "errors of the heap can't be found"])]),
    *published("github", [("a failed test", ["fails.elf"], 3, [f"::error title={FAILED}::fails.elf: {FAILED}\n"]),
                          ("a rest that passes", [*IDLE[:1], IDLE[1].format(0), IDLE[2]], 0, [])]),
    *published("gcc", [("a failed test", ["fails.elf"], 3, [f"fails.elf: error: {FAILED} [Status]\n"]),
                       ("a rest that passes", [*IDLE[:1], IDLE[1].format(0), IDLE[2]], 0, [])]),
    *published("json", [("a failed test", ["fails.elf"], 3, ['"ended": true,\n "exit_status": 3,\n']),
                        ("a rest that passes", [*IDLE[:1], IDLE[1].format(0), IDLE[2]], 0, ['"ended": false,\n "exit_status": 0,\n'])])]
OPTIONS = [
    Row("without -q: a whole log", ["mapped.elf"], 0, said=["== replaycheck, Memcheck for RV32IM", "== Command: mapped.elf", "HEAP SUMMARY",
                                                          "no leaks are possible", "ERROR SUMMARY: 0 errors"]),
    Row("ctest's MemCheck step", [*CTEST, "qemu-riscv32", "says.elf"], 0),
    Row("options that ask for what is done anyway", [*QUIET, "--leak-check=full", "--track-origins=yes", "--vgdb=no", "--error-limit=no",
                                                     "--undef-value-errors=yes", "--trace-children=yes", "says.elf"], 0),
    Row("their values as arguments", [*QUIET, "--tool", "memcheck", "--leak-check", "full", "says.elf"], 0),
    Row("-v lists them", ["-q", "-v", "--vgdb=no", "says.elf"], 0,
        said=["options that change nothing: --vgdb=no\n", "certify: clean to step"]),
    Row("-v says that the run goes on", ["-q", "-v", "--step=2", "says.elf"], 124, "",
        ["certify: clean up to step 2: nothing that", " on the run up to there; the run goes on\n"]),
    Row("-v says it for rv32imc", ["-q", "-v", "--isa=rv32imc", "--input=hi.txt", "half.elf"], 133,
        said=["of signal 5 (SIGTRAP)", "certify: clean to step"]),
    Row("-v says it with regions", ["-q", "-v", *REGIONS, "--input=hi.txt", "placed.elf"], 7, "",
        ["==  Address 0x90000018 is", "certify: not clean: first use at step 2"]),
    Row("-v says it of the patched run", ["-q", "-v", "--input=hi.txt", "--patch=0x00010018=0x00002283", "says.elf"], 3,
        said=["Invalid read of size 4", "certify: not clean: first use at step 6: "]),
    Row("the last --heap-region holds", [*QUIET, "--heap-region=0x30000000", *REGIONS, "placed.elf"], 9, "", ["Address 0x90000018 is"]),
    Row("the last --isa holds", ["-q", "--isa=rv32im", "--isa=rv32imc", "half.elf"], 133, said=["of signal 5 (SIGTRAP)"]),
    Row("-v says what certify says", ["-q", "-v", "reads.elf"], 0, "abc", ["certify: not asked: the run read standard input"], b"abc"),
    Row("--leak-check=no", [*QUIET, "--leak-check=no", "leaks.elf"], 0),
    Row("--errors-for-leak-kinds=none", [*QUIET, "--errors-for-leak-kinds=none", "leaks.elf"], 0, said=["definitely lost in loss record"]),
    Row("--show-leak-kinds=none", [*QUIET, "--show-leak-kinds=none", "leaks.elf"], 9),
    Row("--suppressions, twice", [*QUIET, "--suppressions=known.supp", "--suppressions=more.supp", "writes-badly.elf"], 0),
    Row("--error-exitcode=0", ["-q", "--error-exitcode=0", "writes-badly.elf"], 0, said=["Invalid write"]),
    Row("the last option holds", [*QUIET, "--error-exitcode=7", "writes-badly.elf"], 7, said=["Invalid write"]),
    Row("another tool", ["--tool=massif", "says.elf"], 125, "", ["--tool=massif: --tool is no option here: this is Memcheck"]),
    Row("--xml=yes", ["--xml=yes", "says.elf"], 125, "", ["--xml=yes: --xml is no option here: --format valgrind-xml"]),
    Row("an option of nobody", ["--nope", "says.elf"], 125, "",
        ["replaycheck exec: --nope is no option here; `replaycheck exec --help`"]),
    Row("no number", ["-v", "--step=x", "says.elf"], 125, "",
        ["replaycheck exec: argument --step: 'x' is not a number from 0 to 4294967295\n"]),
    Row("no value", ["--log-file"], 125, "", ["replaycheck exec: argument --log-file: expected one argument\n"]),
    Row("no file", ["-q"], 125, "", ["replaycheck exec: no program's file"]),
    Row("--log-format report", ["-q", "--log-format=report", "writes-badly.elf"], 0,
        said=["step 1000000000\nstate exited 0\n", "error 1: "]),
    Row("--log-format gcc", ["--log-format", "gcc", "writes-badly.elf"], 0, said=["writes-badly.elf: warning: Invalid write of size 4"]),
    Row("--log-format json, with nothing wrong", ["-q", "--log-format=json", "says.elf"], 0, said=['"ended": true', '"errors": []']),
    Row("no such format", ["--log-format=html", "says.elf"], 125, "",
        ["--log-format: invalid choice: 'html' (choose from 'valgrind', 'report',"]),
    Row("--report and --log-file", ["--report=a", "--log-file=b", "says.elf"], 125, "", ["--report and --log-file at once\n"]),
    Row("--report and --full-paths", ["--report=a", "--full-paths", "says.elf"], 125, "", ["--full-paths and --report at once: a report"]),
    Row("a report as log and --strip-prefix", ["--log-format=report", "--strip-prefix=/", "says.elf"], 125, "",
        ["--strip-prefix and --log-format report at once: a report has no source files\n"]),
    Row("--end-line beside another option", ["--end-line", "--log-file=log", "says.elf"], 0),
    Row("--report of the program", ["--report=./says.elf", "says.elf"], 125, "", ["would replace a file that is read: ./says.elf\n"]),
    Row("--report of the input", ["--report", "hi.txt", "--input=./hi.txt", "reads.elf"], 125, "", ["a file that is read: hi.txt\n"]),
    Row("--report of a missing folder", ["--report", "no/report", "says.elf"], 125, "",
        ["replaycheck exec: cannot write the report: no/report\n"]),
    Row("a full report", ["--report=/dev/full", "says.elf"], 125, said=["replaycheck exec: cannot write the report: /dev/full\n"]),
    Row("--report and a format", ["--report=a", "--log-format=gcc", "says.elf"], 125, "", ["--report and --log-format gcc at once\n"]),
    Row("--report and --require-heap", ["-q", "--report=a", "--require-heap", "stripped.elf"], 126, said=[UNSEEN]),
    Row("--log-fd", [*QUIET, "--log-fd=1", "writes-badly.elf"], 9, said=[]),
    Row("a closed --log-fd", ["--log-fd=77", "says.elf"], 125, "", ["--log-fd: cannot write to descriptor 77: Bad file descriptor\n"]),
    Row("--log-file of a missing folder", ["--log-file=no/log", "says.elf"], 125, "",
        ["cannot write no/log: No such file or directory\n"]),
    Row("--log-file with %z", ["--log-file=log.%z", "says.elf"], 125, "", ["--log-file: not %p, %q{NAME} or %%: %z\n"]),
    Row("--log-file with no such variable", ["--log-file=%q{NO_SUCH}", "says.elf"], 125, "",
        ["no variable in the environment: NO_SUCH\n"]),
    Row("--log-file of the program", ["--log-file=./says.elf", "says.elf"], 125, "", ["would replace a file that is read: ./says.elf\n"]),
    Row("an unseen heap, without --error-exitcode", ["-q", "stripped.elf"], 0),
    Row("it is a line of a whole log", ["stripped.elf"], 0, said=[f"replaycheck exec: stripped.elf: {UNSEEN}: the file has no symbols"]),
    Row("and so are functions beside malloc", ["pool-beside.elf"], 0, said=[f"pool-beside.elf: {UNMAPPED}pool_Allocate\n"]),
    Row("--require-heap, a stripped file", [*QUIET, "--require-heap", "stripped.elf"], 9, said=[UNSEEN]),
    Row("--require-heap, without --error-exitcode", ["-q", "--require-heap", "stripped.elf"], 126, said=[UNSEEN]),
    Row("the last of --require-heap and --no-require-heap holds", [*QUIET, "--require-heap", "--no-require-heap", "stripped.elf"], 0),
    Row("--not-heap, twice", [*QUIET, "--not-heap=none", "--not-heap=k_malloc", "zephyr.elf"], 0),
    Row("--require-heap, a known heap", [*QUIET, "--require-heap", "leaks.elf"], 9, said=["definitely lost"]),
    Row("options of the environment", ["says.elf"], 0, more={"REPLAYCHECK_OPTS": "-q"}),
    Row("options of the environment come first", ["--error-exitcode=7", "writes-badly.elf"], 7, said=["Invalid write"],
        more={"REPLAYCHECK_OPTS": "-q --error-exitcode=9"}),
    Row("quoted options of the environment", ["says-and-reads.elf"], 0, "hi\nhi\n", more={"REPLAYCHECK_OPTS": "-q --input 'hi.txt'"}),
    Row("a file among the options of the environment", ["says.elf"], 125, "", ["REPLAYCHECK_OPTS: no option: hi.txt\n"],
        more={"REPLAYCHECK_OPTS": "-q hi.txt"}),
    Row("an option of the environment without its value", ["--tool=memcheck", "says.elf"], 125, "", ["--step: expected one argument\n"],
        more={"REPLAYCHECK_OPTS": "-q --step"}),
    Row("badly quoted options of the environment", ["says.elf"], 125, "", ["REPLAYCHECK_OPTS: No closing quotation\n"],
        more={"REPLAYCHECK_OPTS": "'-q"}),
]
# What the manual says that passes here and fails elsewhere.
ELSEWHERE = [
    Row("a write to code passes", [*QUIET, "writes-code.elf"], 0),
    Row("instructions on the stack are executed", [*QUIET, "executes-stack.elf"], 0),
    Row("a call that isn't known", [*QUIET, "calls-unknown.elf"], 0, said=["replaycheck: call 66 isn't known (1 time)\n"]),
    Row("bytes that may not be accessed are written", ["-q", "writes-past.elf"], 0, "\0" * 4096, ["Syscall param write(buf)"]),
]
BEFORE = [
    Row("an emulator before the file", [*QUIET, "/usr/bin/qemu-riscv32", "writes-badly.elf"], 9, said=["Invalid write"]),
    Row("an emulator's options", [*QUIET, "qemu-riscv32", "-cpu", "rv32", "says.elf"], 125, "",
        ["options of an emulator aren't stepped over: qemu-riscv32 -cpu\n"]),
    Row("another exec before the file", ["-q", "replaycheck", "exec", "--error-exitcode=9", "writes-badly.elf"], 9, said=["Invalid write"]),
    Row("the outer one's options hold",
        [*QUIET, "./replaycheck-exec", "-q", "--error-exitcode", "7", "qemu-riscv32", "writes-badly.elf"], 9, said=["Invalid write"]),
    Row("a file after --", [*QUIET, "--", "says.elf"], 0),
    Row("arguments", [*QUIET, "counts.elf", "a", "b"], 3, ""),
    Row("arguments that look like options", [*QUIET, "counts.elf", "--input", "-q", "--"], 4, ""),
    Row("an argument's text", [*QUIET, "first.elf", "fives"], 0, "fives"),
    Row("an argument that is empty", [*QUIET, "counts.elf", ""], 2, ""),
    Row("arguments without a room", [*QUIET, "says.elf", "a"], 126, "",
        ["replaycheck exec: arguments refused: says.elf: it has no room __replaycheck_arguments, which start.S has with -DARGUMENTS\n"]),
    Row("an option after the file", [*QUIET, "says.elf", "--error-exitcode=9"], 126, "",
        ["it has no room __replaycheck_arguments, which start.S has with -DARGUMENTS; options of `exec` come before FILE\n"]),
    Row("too long arguments", [*QUIET, "counts.elf", "a" * 64], 126, "",
        ["arguments refused: counts.elf: they need 92 bytes, and __replaycheck_arguments has 64\n"]),
    Row("arguments for no program", [*QUIET, "hi.txt", "a"], 126, "", ["arguments refused: hi.txt: it has no room"]),
    Row("arguments for no file", [*QUIET, "none.elf", "a"], 127, "",
        ["replaycheck exec: cannot read none.elf: No such file or directory\n"]),
]
PATHS = [(QUIET, "quiet"), ([*QUIET, "--tool=memcheck"], "by Python")]
ROWS = [*(row for path in PATHS for row in [*statuses(*path), *heaps(*path), *regions(*path)]), *OPTIONS, *ELSEWHERE, *PUBLISHED, *BEFORE]
