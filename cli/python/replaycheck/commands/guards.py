"""Prints marks that close the gaps between the static objects of a program, so
that an overrun of a static array is an error.

usage: replaycheck guards FILE [--map MAP] [--bytes N] [--undefined PLACE]..
                          [--null-page] [--step N]
       replaycheck guards --pad SCRIPT --map MAP [--bytes N]

FILE is the program. Give the lines to `session` or `look`, before others. A gap
lies between the end of an object and the next symbol of its section. Often
there is none: link again with the script that --pad prints. Standard error says
how many objects have a closed byte after them, which sections were left out,
and why. Without --map an empty string or another constant of zeros that has no
name may be taken for a gap.

Options:
  --pad SCRIPT       print the linker script SCRIPT with free bytes before and
                     after each section of data that MAP names, the map of a
                     link with SCRIPT. Compile with -fdata-sections, so that
                     each object has a section of its own
  --map MAP          the map of the link, by -Wl,-Map=MAP. Then gaps are what
                     the linker says that it has filled, whatever bytes are
                     there, and the padding of --pad
  --bytes N          how many bytes are free, or were with --pad: 1 to 4096; 16
                     by default
  --undefined PLACE  RAM that nothing clears: mark it as undefined. PLACE is a
                     section, an object or A..B, without B. May be given again
                     and again
  --null-page        close the first 256 addresses as well, except what a symbol
                     has there, or the code that is reached from the entry
  --step N           mark from step N on, not from the start: for a start file
                     that writes to .bss or .data, that of the call of main

Exit status:
  0  the lines or the script were printed
  2  it failed: a line on standard error says what, and why"""


def main() -> int:
    from replaycheck.guarding.command import guards, options_of  # here, as the page needs none of it
    return guards(options_of(__doc__))
