"""The command line of `replaycheck gdb`."""
import sys
from argparse import Namespace

from replaycheck.endings import write
from replaycheck.looking import Run
from replaycheck.options import Parser, number

from .altering import Alterer
from .connections import Pipes, Port
from .monitor import Monitor
from .packets import Packets
from .stops import Goer
from .stub import Stub

COMMANDS = """# Has gdb read anew what a line of monitor may have changed, and wait for long searches.
define hookpost-monitor
  maintenance flush register-cache
  maintenance flush dcache
end
set remotetimeout 120
"""


def options_of(page: str) -> Namespace:
    parser = Parser(page)
    parser.add_argument("file", nargs="?")
    parser.add_argument("--input")
    parser.add_argument("--supp")
    parser.isa_option()
    parser.region_options()
    parser.limit_option()
    parser.add_argument("--port", type=number(0, 65535))
    parser.add_argument("--commands", action="store_true")
    options = parser.read()
    if options.commands == (options.file is not None):
        parser.error("FILE is wanted, or --commands alone")
    if options.commands and len(sys.argv) > 2:
        parser.error(f"--commands goes with no other option: {' '.join(word for word in sys.argv[1:] if word != '--commands')}")
    return options


def debug(options: Namespace) -> int:
    if options.commands:
        write(COMMANDS)
        return 0
    run = Run(options.file, options.input, options.supp, options.isa, options.regions, options.limit)
    run.registers()  # what keeps the program from its work is told before gdb is answered
    alterer = Alterer(run)
    goer = Goer(run, alterer)
    monitor = Monitor(run, goer, alterer)
    connection = Pipes() if options.port is None else Port(options.port)
    Stub(Packets(connection), run, goer, alterer, monitor).serve()
    return 0
