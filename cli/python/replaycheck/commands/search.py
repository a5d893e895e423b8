"""Searches for inputs that lead a program to errors, leaks and stops. It keeps
each input that goes somewhere new, and makes others of it, by what the program
compares and by chance.

usage: replaycheck search FILE [--input SEED..] [--out DIR] [--time S]
         [--runs N] [--jobs N] [--seed S] [--max-len N] [--tokens F]
         [--goal TEXT] [--supp F] [--step N] [--limit N] [--lcov OUT]
         [--isa NAME]
         [--heap-region BEGIN] [--stack-region A..B]
         [--most-moved N] [--most-output N]

A finding is an error, a leak or a stop that no seed has. What is said of an
input is what the program says of it. Without --time and --runs the search
continues until it is interrupted (Ctrl-C). The summary is printed then, too.

Which runs:
  --input SEED..       inputs to begin with: files, or folders of files, also a
                       queue of AFL. Without it, the seeds of the search that
                       --out has; else the search begins with an empty input
  --max-len N          the greatest length of an input, from 1 to 65536; 256 by
                       default. A longer seed is cut, which is said. An input
                       of more than 2040 bytes keeps its length
  --supp F             a file of suppressions
  --isa NAME           the instruction set: rv32im (the default), rv32imc or
                       rv32imac
  --heap-region BEGIN  where the heap's region begins; 0x40000000 by default
  --stack-region A..B  the stack's region; 0x7f000000..0x80000000 by default
  --most-moved N, --most-output N
                       the most bytes that one read or write moves,
                       and that the program writes in all, or none for
                       no limit; 4096 and 65536 by default
  --step N             the step up to which each run goes; by default 4 times
                       the step at which the first seed's run ends, at least
                       10000 and at most that of --limit. A seed whose run
                       doesn't end by then needs this option
  --limit N            how far --step may go, and how far that end is looked
                       for: 4194304 by default, at most 2147483647

How:
  --out DIR            keep what is found in this folder. If it has a search
                       already, that is continued: its inputs are tried first.
                       While another search works in DIR, this one works in
                       DIR/2, DIR/3 and so on, and each reads what the other
                       ones find; that may be on several machines, if they can
                       lock files of DIR. Queues of AFL in DIR/NAME are read,
                       too
  --time S             end after S seconds
  --runs N             end after N runs, of all jobs together
  --jobs N             the number of processes that search; by default the
                       number of processors that this may run on
  --seed S             the seed of the random numbers, 0 by default. With
                       --jobs 1 and --runs the same command line finds the same
  --tokens F           texts to put into inputs, a line each, in the format of
                       AFL's dictionaries: name="text", with \\x00 for a byte

What is printed:
  --goal TEXT          instead of errors, leaks and stops: findings are inputs
                       whose outcome has a line that begins with TEXT, such as
                       `exited 0`
  --lcov OUT           write an info file for genhtml, as `replaycheck coverage`
                       does: what the runs of the queue's inputs have executed.
                       FILE must have debug information (gcc -g); - is standard
                       output, without a summary

In the folder of --out, or in DIR/2:
  queue/id:000012,src:000003,op:repair,+cov
                       an input with something new in its run: made of input 3,
                       how, and whether the run has new code or new ways on.
                       Names are as AFL has them
  findings/01.input    a finding's input, as short as was found; .text says what
                       it is, .session has the lines for `replaycheck look
                       FILE --input SEED` that lead to it, with the first seed,
                       and .report is what `replaycheck run` prints of it, with
                       the step of the search
  fuzzer_stats, plot_data
                       numbers in the form of AFL's, which afl-whatsup reads in
                       the folder above

Exit status:
  0  no finding
  1  there are findings
  2  it failed: a line on standard error says why

Environment:
  REPLAYCHECK  the program to run instead of the usual one
  ADDR2LINE    the addr2line that finds source lines"""


def main() -> int:
    from replaycheck.searching.command import options_of, search  # here, as the page needs none of it
    return search(options_of(__doc__))
