"""usage: replaycheck certify FILE [--any A..B] [--any-memory PLACE]
       [--reveal STEP,ADDR,LEN] [--input F] [--isa NAME] [--heap-region BEGIN]
       [--stack-region A..B] [--most-moved N] [--most-output N] [--step N]
       [--show-options]

The launcher adds to these options of the program:
  --any-memory NAME  the bytes of a symbol that has a size: an object, such as a
                     key. The program is given their addresses
  --show-options     prints the command line that it would start, with these
                     addresses, and starts nothing

After `not the same for any ..` it prints the bytes that this comes from:
   the bytes: input 3..5
With only these bytes any, the run is not the same either, at the same step. With
the first or the last of a range left out it is the same up to that step. There
may be other such bytes: these are the first. They cost some runs up to that step.

Exit status: that of the program, or 2 if the command line is at fault.

Environment:
  REPLAYCHECK  the program to run instead of the usual one"""
import sys

from replaycheck.launching import asks_for_help, show_helps


def show_page() -> int:
    return show_helps("certify", str(__doc__))


def main() -> int:
    if asks_for_help(sys.argv[1:]):
        return show_page()
    from replaycheck.certifying.command import certify  # here, as the page needs none of it
    return certify(str(__doc__))
