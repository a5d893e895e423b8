"""Tries every edit of an input, of a program's instructions, or of the machine at
a step, one at a time, and sums up the outcomes. The runs are those of
`replaycheck sweep`, in parts that run side by side.

usage: replaycheck explore FILE [--input F] [--supp F] [--isa NAME]
         [--step N | --limit N] [--heap-region BEGIN] [--stack-region A..B]
         [--most-moved N] [--most-output N]
         [--bytes A..B] [--values V] [--words A..B | --code NAME]
         [--words-values V]
         [--at A..B --faults LIST [--code NAME | --code-range A..B]
         [--pairs skip]] [--with-output] [--jobs N] [--parts N] [--keep DIR]
         [--sample N [--seed S]] [--sshlogin LIST] [--goal TEXT] [--table OUT]
         [--svg OUT] [--html OUT] [--lcov OUT] [--script slurm]
         [--require-heap]
       replaycheck explore [FILE [--input F] [--supp F]] --from TABLE..
         [--goal TEXT] [--table OUT] [--svg OUT] [--html OUT] [--lcov OUT]

The summary lists the errors, leaks and stops that the unedited run doesn't
have, and then the outcomes, the worst first: `+` is new, `-` is gone. No output
may be a file that is read. Standard error says how far the sweep is: on a
terminal all the time, elsewhere in a line every 10 seconds.

Which run:
  --input F            the file that the program reads
  --supp F             a file of suppressions
  --isa NAME           the instruction set: rv32im (the default), rv32imc or
                       rv32imac
  --heap-region BEGIN  where the heap's region begins; 0x40000000 by default
  --stack-region A..B  the stack's region; 0x7f000000..0x80000000 by default
  --most-moved N, --most-output N
                       the most bytes that one read or write moves,
                       and that the program writes in all, or none for
                       no limit; 4096 and 65536 by default
  --step N             the step at which runs are compared, at most 2147483647.
                       By default it comes after the end of the unedited run by
                       3 times the steps from the first edit to that end, or by
                       10000 if that is more; but it is at most 4 times the end
                       and at least 10000. If the run doesn't end by the step of
                       --limit, it is 1048576
  --limit N            how far that end is looked for, and the most that the
                       default is: 4194304 if it isn't given, at most 2147483647

Which edits:
  --bytes A..B         bytes A to B of the input; A.. goes up to its end, A is
                       one byte. By default, if neither --words, --code nor --at
                       is given: all bytes that the unedited run reads, since no
                       edit of another byte changes the run
  --values V           the values of each byte: all others (the default), flips
                       of one bit, edges (0, 1, 0x7f, 0x80, 0xff, the next
                       greater and the next smaller one), or a list of numbers
                       with commas
  --words A..B         the words, which may be instructions, at addresses A to
                       B; with rv32imc and rv32imac the instructions from A
                       on, of 16 or 32 bits, up to one that begins at B
  --code NAME          the words, or the instructions, of a function
  --words-values V     the values of each word: skip, an instruction that does
                       nothing (the default), flips, or a list, which is for
                       instructions of 32 bits
  --at A..B            alter the machine just before each of the steps A to B of
                       the unedited run; A.. goes up to where that ends. With
                       --code NAME only at instructions of this function
  --faults LIST        how, with commas: skip (the instruction is left out),
                       registers and pc (one bit is inverted), words (one bit of
                       the instruction, for this step only), memory (one bit of
                       a byte that is read later), zero and ones (a register is
                       set to 0, to all ones)
  --code-range A..B    with --at: only at instructions at addresses A to B
  --pairs skip         with --at: leave out two instructions as well, the second
                       at each later step up to B
  --with-output        outcomes also differ by the number of bytes written

How:
  --jobs N             the number of parts at a time; by default the number of
                       processors that this may run on
  --parts N            the number of parts of the sweep; by default 8 for each
                       job
  --keep DIR           keep the tables of finished parts in this folder; another
                       run continues from there
  --sample N           run only N parts: those of Python's
                       random.Random(S).sample(range(1, P + 1), N). P is the
                       number of parts, by default the number of places
  --seed S             the S of a sample, 0 by default
  --sshlogin LIST      run the parts on these machines by GNU parallel; : is
                       this machine
  --script slurm       print a script for sbatch, which runs the parts as an
                       array of tasks
  --from TABLE..       read tables of parts that ran elsewhere; - is standard
                       input. With FILE the summary has names, source lines and
                       the values before the edits, and it is known which
                       instructions of 16 bits the tables must have

What is printed:
  --goal TEXT          instead of a summary, the edits whose outcome has a line
                       that begins with TEXT, such as `exited 0`; `exited 1`
                       also matches `exited 10`
  --table OUT          write the table of the whole sweep, as `replaycheck
                       sweep` writes it, or those of a sample's parts; - is
                       standard output, without a summary
  --svg OUT            draw a picture: a column for each place, a row for each
                       value, a colour for each kind of error, greys for what
                       is harmless, blue for the goal. Of steps, a row for each
                       register, bit or address, a colour for the worst that an
                       edit leads to
  --html OUT           write the sweep as a page that a browser opens from disk,
                       without a server and without replaycheck: the picture,
                       the errors by their places, and of each edit its report,
                       its output and its place in the source. It has at most
                       200000 edits, those with something new before others,
                       and says what it leaves out. Each edit needs another run
                       for it, on this machine; - is standard output, without
                       a summary
  --lcov OUT           write an info file for genhtml, as `replaycheck coverage`
                       does: what the unedited run and the runs of all edits
                       have executed. FILE must have debug information (gcc
                       -g). Each edit that isn't of a byte needs another run
                       for it, on this machine; - is standard output, without
                       a summary
  --require-heap       fail if errors of the heap can't be found, as the file
                       has no symbols, or a heap by names other than malloc,
                       free, calloc and realloc; without this option a line on
                       standard error says so

Exit status:
  0  nothing new, or no edit reaches the goal
  1  some edit leads to a new error, leak or stop, or reaches the goal
  2  it failed: a line on standard error says why, and nothing else was printed

Environment:
  REPLAYCHECK  the program to run instead of the usual one
  ADDR2LINE    the addr2line that finds source lines"""


def main() -> int:
    from replaycheck.exploring.command import explore, options_of  # here, as the page needs none of it
    return explore(options_of(__doc__))
