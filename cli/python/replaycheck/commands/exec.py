"""Options that the launcher adds, for test runners and for users of Valgrind:

usage: replaycheck exec [OPTION ..] FILE [ARG ..]

The report is printed as a log in the form of Valgrind's, with source lines.
Options come before FILE; what follows FILE are the program's own arguments.
They need the room that start.S has with -DARGUMENTS. REPLAYCHECK_OPTS has more
options, which come first; of an option that is given twice the last one holds.
The name qemu-riscv32 before FILE is ignored, and so is `replaycheck exec` with
its options: ctest and meson put their checker before the emulator.

For the log:
  --log-file F            the log goes to F, in place of standard error; %p is the
                          number of this process, %q{NAME} a variable of the
                          environment, %% a %
  --log-fd N              the log goes to descriptor N
  --log-format FORMAT     valgrind, the default; report, the proved text; or json,
                          sarif, valgrind-xml, junit, gcc, github as of `run`;
                          all but valgrind-xml also say a status other than 0
  --no-demangle           names of functions as the symbol table has them
  --full-paths            whole paths of source files
  --strip-prefix FOLDER   paths of source files from below a folder
  -v, --verbose           also says what `certify` says of the run, and which
                          options of Valgrind change nothing

Of two names of one option use Valgrind's, which `run` has too:
  --num-callers N         for --callers; more than 24 are taken for 24
  --show-leak-kinds LIST  for --show
  --errors-for-leak-kinds LIST
                          for --count
  --freelist-vol N        for --queue
  --redzone-size N        for --redzone
  --suppressions F        for --supp; may be given again and again

Other options of Valgrind's:
  --demangle yes|no       names of C++ and Rust as they are in the source: yes
  --show-reachable yes|no
                          yes lists all leaks
  --leak-check HOW        no and summary list no leak, and count none
  --tool memcheck         taken, as are others that ask for what is done anyway;
                          options that don't are rejected

With --quiet and only options of the program, a log is written only where there
is an error, a listed leak or a stop. addr2line finds source lines, and c++filt
names as in the source: those that ADDR2LINE and CXXFILT name, or those of the
binutils for RISC-V. Without c++filt names stay, and a line says so.

The exit status is 125 if the log can't be written, and 126 if FILE has no room
for arguments. All others are those of `exec` without these options."""
from replaycheck.launching import show_helps


def show_page() -> int:
    return show_helps("exec", str(__doc__))


def main() -> int:
    from replaycheck.executing.execution import run  # here, as the page needs none of it
    return run(show_page)
