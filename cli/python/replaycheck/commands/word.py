"""Prints the word of an instruction, as the line `patch` of a session takes it.

usage: replaycheck word INSTRUCTION [--at ADDRESS] [--symbols FILE] [--isa NAME]

INSTRUCTION is one argument, such as 'bgeu a1,a5,.+76' or 'jal malloc'. With
--isa=rv32imc or rv32imac it may also be one of 16 bits, such as 'c.nop': then
its half is printed, with four digits, as the line `patch16` takes it. Two of
them, such as 'c.nop; c.li a0,1', are one word. It may also be one of a control
register, such as 'csrr a0,mhartid', and with --isa=rv32imac an atomic one, such
as 'amoadd.w a0,a1,(a2)'.

Options:
  --at ADDRESS    the address of the instruction. A branch or a jump to an
                  address or a name needs it, and so does `auipc`; a distance
                  such as .+76 doesn't
  --symbols FILE  the program whose names the instruction may use
  --isa NAME      the instruction set: rv32im (the default), rv32imc or rv32imac

Exit status:
  0  the word or the half was printed
  1  not an instruction, or more than one word
  2  it failed: a line on standard error says what, and why

Environment:
  AS           the assembler, riscv64-unknown-elf-as by default
  LD, OBJDUMP  the linker and the disassembler; by default those beside the
               assembler"""
import os
import re
import subprocess
import sys
import tempfile
from typing import List, Optional, Tuple

from replaycheck.endings import Fault, start, write
from replaycheck.options import Parser, number, one_line
from replaycheck.programs import USUAL, unit_of

NEEDS = "it needs Debian's binutils-riscv64-unknown-elf, or what AS, LD and OBJDUMP name"
CODE = re.compile(r"^ +[0-9a-f]+:\s+([0-9a-f]+)\s", re.M)
OF_HALVES = re.compile(r"(?:^|[;:])\s*c\.", re.I)
ONE_HALF = re.compile(r"(?:[^;]*:)?\s*c\.[^;]*;?\s*", re.I)
DIRECTIVE = re.compile(r"(?:^|[;:])\s*(\.[a-z]\w*)", re.I)
CONTROLS = "_zicsr_zifencei"  # what the assembler calls control registers and fence.i, which each set but the usual one has
MAKE_WORDS = (".word", ".insn")  # the directives that are taken
HALF = 4  # digits of an instruction of 16 bits
UNKNOWN = re.compile(r"undefined reference to `([^']+)'")
ANYWHERE = 0x10000, 0x20000  # where the word doesn't depend on the address, it is the same at both


class Tools:
    """The assembler, the linker and the disassembler, over files of one folder."""

    def __init__(self, folder: str, isa: str):
        self.isa = isa
        assembler = os.environ.get("AS") or "riscv64-unknown-elf-as"
        self.assembler = assembler
        self.linker = os.environ.get("LD") or re.sub("as$", "ld", assembler)
        self.disassembler = os.environ.get("OBJDUMP") or re.sub("as$", "objdump", assembler)
        self.object, self.linked = os.path.join(folder, "object"), os.path.join(folder, "linked")

    def assemble(self, instruction: str) -> bool:
        """Whether the assembler takes the instruction; it says itself why not. What isn't written with 16 bits gets 32."""
        text = instruction if self.isa == USUAL or OF_HALVES.search(instruction) else f".option norvc; {instruction}"
        march = self.isa + (CONTROLS if self.isa != USUAL else "")
        child = start([self.assembler, f"-march={march}", "-mabi=ilp32", "-mno-relax", "-o", self.object, "-"], NEEDS,
                      stdin=subprocess.PIPE)
        child.communicate(text.encode("utf-8", "surrogateescape") + b"\n")
        return child.returncode == 0

    def link(self, at: int, symbols: Optional[str]) -> str:
        """Links the instruction at an address, with a program's names. What the linker says of a fault, or nothing."""
        words = [self.linker, "-melf32lriscv", "--no-relax", f"-Ttext={at:#x}", "-e", "0", "-o", self.linked]
        words += [f"--just-symbols={symbols}"] if symbols else []
        child = start([*words, self.object], NEEDS, stdout=subprocess.DEVNULL, stderr=subprocess.PIPE)
        said = child.communicate()[1].decode("utf-8", "surrogateescape").strip()
        return fault_of_link(said, symbols) if child.returncode else ""

    def shown(self, *words: str) -> str:
        """What the disassembler prints."""
        child = start([self.disassembler, *words], NEEDS, stdout=subprocess.PIPE)
        told = child.communicate()[0].decode("utf-8", "surrogateescape")
        if child.returncode:
            raise Fault(f"{self.disassembler} ended with status {child.returncode}")
        return told


def fault_of_link(said: str, symbols: Optional[str]) -> str:
    """What the linker has said, in words about an instruction."""
    unknown = UNKNOWN.search(said)
    if unknown:
        where = f"it is no global symbol of {symbols}" if symbols else "--symbols FILE gives the names of a program"
        return f"unknown name: {unknown[1]}; {where}; an address works, too"
    if "relocation truncated" in said:
        return "the target is too far from the instruction's address"
    return said or "the linker has failed"


def refused(text: str) -> int:
    sys.stderr.write(f"replaycheck word: {text}\n")
    return 1


def words_at(tools: Tools, at: int, symbols: Optional[str]) -> Tuple[List[str], str]:
    """The words of the instruction at an address, or what is wrong with it. A half has four digits; two of them are one word."""
    fault = tools.link(at, symbols)
    words = [] if fault else CODE.findall(tools.shown("-d", tools.linked))
    return [words[1] + words[0]] if [len(word) for word in words] == [HALF, HALF] else words, fault


def fault_of(words: List[List[str]], instruction: str) -> str:
    """What is wrong with the words of an instruction at one or two addresses; nothing where each has the same one."""
    if len(words[0]) != 1 and any(len(word) == HALF for word in words[0]):
        return "more than one word: that is one instruction, or two of 16 bits, such as 'c.nop; c.nop'"
    if len(words[0]) != 1:
        hint = "; a branch takes a distance, such as .+64" if len(words[0]) == 2 else ""
        return f"{len(words[0])} words, not one{hint}"
    if ONE_HALF.fullmatch(instruction) and len(words[0][0]) != HALF:
        return "the assembler makes 32 bits of it: a distance, such as .+16, keeps 16"
    if words[0] != words[-1]:
        return "the word depends on the instruction's address: --at ADDRESS gives it"
    return ""


def main() -> int:
    parser = Parser(__doc__)
    parser.add_argument("instruction", type=one_line)
    parser.add_argument("--at", type=number(0, 0xFFFFFFFE))
    parser.add_argument("--symbols")
    parser.isa_option()
    options = parser.read()
    unit = unit_of(options.isa)
    if options.at is not None and options.at % unit:
        raise Fault(f"--at 0x{options.at:x}: not a multiple of {unit}")
    if options.symbols is not None and not os.path.isfile(options.symbols):
        raise Fault(f"{options.symbols}: no such file")
    directives = [name for name in DIRECTIVE.findall(options.instruction) if name not in MAKE_WORDS]
    if directives:
        return refused(f"{directives[0]}: a directive, not an instruction")
    with tempfile.TemporaryDirectory() as folder:
        tools = Tools(folder, options.isa)
        if not tools.assemble(options.instruction):
            return 1
        found = []
        for at in ANYWHERE if options.at is None else [options.at]:
            words, fault = words_at(tools, at, options.symbols)
            if fault:
                return refused(fault)
            found.append(words)
    fault = fault_of(found, options.instruction)
    if fault:
        return refused(fault)
    write(f"0x{found[0][0]}\n")
    return 0
