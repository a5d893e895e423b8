"""usage: replaycheck run FILE [--input F] [--supp F | --suppressions F ..]
       [--isa NAME] [--heap-region BEGIN] [--stack-region A..B] [--step N]
       [--error-exitcode N]
       [--errors-for-leak-kinds LIST]
       [--require-heap | --no-require-heap] [--not-heap NAME ..]
       [--show-leak-kinds LIST] [--num-callers N] [--freelist-vol N]
       [--redzone-size N] [--format FORMAT]
       [--full-paths | --strip-prefix FOLDER] [--no-demangle]

The launcher adds options for CI, for users of Valgrind, and for other programs.
With any of them the report is that at step 4194304, the last there is, unless
--step says another one. sarif and github name source files from the
current folder on, if they lie below it. Without addr2line there are no source
lines, without c++filt names of C++ and Rust stay as in the symbol table, and a
line on standard error says so.

For CI:
  --error-exitcode N      ends with N if the report has an error, a leak of some
                          kinds, or a program that hasn't exited: one that has
                          stopped, or still runs at the last step; 0, the
                          default, never does
  --errors-for-leak-kinds LIST
                          these kinds: definite, indirect, possible, reachable,
                          all, none, with commas; definite,possible by default
  --require-heap          ends with N of --error-exitcode, or 1, if errors of the
                          heap can't be found; the default with --error-exitcode
  --no-require-heap       doesn't
  --not-heap NAME         a function that isn't a heap's, or some with commas; may
                          be given again and again

As Valgrind has them:
  --show-leak-kinds LIST  lists these leaks: definite,possible by default
  --num-callers N         addresses of a trace: 1 to 24, 12 by default
  --freelist-vol N        bytes of freed blocks that are remembered: 20000000 by
                          default
  --redzone-size N        inaccessible bytes beside each block: 0 to 4096, 16 by
                          default
  --suppressions F        a file of suppressions; may be given again and again
  --demangle yes|no       names of C++ and Rust as they are in the source, in all
                          formats but text: yes

For other programs:
  --format FORMAT         text, json, sarif, valgrind-xml, junit, gcc or github
  --full-paths            whole paths of source files, in all formats but text
  --strip-prefix FOLDER   paths of source files from below a folder
  --no-demangle           names of functions as the symbol table has them, as
                          suppressions do

Before a test of ctest, meson or make use `replaycheck exec`: `run` prints a report
in place of the program's output, and doesn't pass its status on.

Exit status with these options:
  0 or N  the report was printed; N is that of --error-exitcode
  1 to 4  the program can't make the report: its own status, with its line
  2       the command line is at fault, or something else failed

Environment:
  REPLAYCHECK  the program to run instead of the usual one
  ADDR2LINE    the addr2line that finds source lines, instead of that of the
               binutils for RISC-V
  CXXFILT      the c++filt that makes names readable, instead of that of the
               binutils"""
import gc
import sys

from replaycheck.launching import asks_for_help, show_helps


def show_page() -> int:
    return show_helps("run", str(__doc__))


def main() -> int:
    if asks_for_help(sys.argv[1:]):
        return show_page()
    gc.disable()  # it mostly imports, and what it makes is needed to its end
    from replaycheck.checked_run import run  # here, as the page needs none of it
    return run(str(__doc__))
