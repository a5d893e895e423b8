"""Says whether a board's linked file will run, and how far, and writes one that
does.

usage: replaycheck adopt FILE [-o OUT] [--heap NAME=CALL].. [--keep NAME]..
                         [--devices INPUT].. [--isa NAME]
                         [--heap-region BEGIN] [--stack-region A..B]

FILE is what the linker wrote; it stays as it is. Printed are each obstacle with
its cure, the loads and stores of devices whose addresses are in the code, then
what was changed and where, and last how far the file will run.

Options:
  -o OUT, --output OUT
                    write OUT, in which everything is cured that needs no
                    rebuild: heaps with other names, instructions for control
                    registers, a stack of the board's own, calls of a host by
                    semihosting, and initialised data that the start file copies
                    from flash
  --heap NAME=CALL  NAME is a function of a heap, too. CALL says how it is
                    called: malloc(SIZE), free(BLOCK), calloc(COUNT,SIZE) or
                    realloc(BLOCK,SIZE), with the register of each parameter, a0
                    to a7, or a number in its place: 'pool_alloc=malloc(a1)'.
                    May be given again and again
  --keep NAME       change nothing in the function NAME. May be given again and
                    again
  --devices INPUT   answer for the UARTs of QEMU's virt and of SiFive, for the
                    test device of virt and for tohost: loads and stores of them
                    become calls. They are found by addresses in the code, and
                    by runs on INPUT, whose bytes the program reads. May be
                    given again and again
  --isa NAME        the instruction set for which OUT is to be run: rv32im (the
                    default), rv32imc or rv32imac. Only rv32im has no control
                    registers, fence.i and wfi: with the others they stay. A
                    file with instructions of 16 bits is cured only for these
  --heap-region BEGIN, --stack-region A..B
                    the regions of heap and stack with which OUT is to be run.
                    Without them they are the usual ones, or, if a segment is
                    there, others, which are printed

Exit status:
  0  FILE will run as it is, or OUT was written and will run
  1  there are obstacles, which -o or a rebuild cures, or devices
  2  it failed: a line on standard error says what, and why"""


def main() -> int:
    from replaycheck.adopting.command import adopt, options_of  # here, as the page needs none of it
    return adopt(options_of(__doc__))
