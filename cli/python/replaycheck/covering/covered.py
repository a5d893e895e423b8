"""What runs have executed of a program's source: lines, branches and functions, by file."""
from __future__ import annotations

import bisect
import itertools
import os
from typing import Dict, Iterable, Iterator, List, Optional, Set, Tuple

from replaycheck.endings import Fault
from replaycheck.guest.code import Code, Instruction
from replaycheck.guest.instructions import may_jump
from replaycheck.line_table import LineTable  # before a child runs: a signal within an import can get lost
from replaycheck.places import Place, Places

from .runs import WENT_ELSEWHERE, WENT_ON

AT_ONCE = 1000  # instructions whose places are asked for together
UNNAMED = "??"  # the function of an address that belongs to none


class Branch:
    """A conditional branch: whether the run ever went on after it, and whether it was ever taken; the numbers of its block and of those
    that it leads to, None where there is no code."""

    def __init__(self, sides, source, on, to):
        self.sides, self.source = sides, source
        self.ways: List[Tuple[bool, Optional[int]]] = [(bool(sides & WENT_ON), on), (bool(sides & WENT_ELSEWHERE), to)]


class Line:
    """A line that has instructions, of itself or of calls that are inlined there: whether one of them was executed, and whether one was
    not; its branches in the order of their addresses, its blocks, and the first function that has it."""

    def __init__(self, function):
        self.function, self.is_executed, self.has_unexecuted = function, False, False
        self.branches: List[Branch] = []
        self.blocks: Set[int] = set()


class Function:
    """A function, also where it is inlined: its lines, and its blocks with whether each was executed."""

    def __init__(self, name):
        self.name, self.first, self.last = name, 1 << 32, 0
        self.blocks: Dict[int, bool] = {}

    @property
    def is_executed(self):
        return any(self.blocks.values())

    def take(self, line):
        self.first, self.last = min(self.first, line), max(self.last, line)


class SourceFile:
    """A source file as far as the program has code of it."""

    def __init__(self, name):
        self.name = name
        self.lines: Dict[int, Line] = {}
        self.functions: Dict[str, Function] = {}

    @property
    def branches(self) -> List[Tuple[int, int, Branch]]:
        """Each branch, with its line and its number among those of the line."""
        return [(number, index, branch) for number, line in sorted(self.lines.items()) for index, branch in enumerate(line.branches)]

    @property
    def unexecuted(self) -> List[int]:
        return sorted(number for number, line in self.lines.items() if not line.is_executed)

    def in_order(self) -> List[Function]:
        """The functions, by their first lines."""
        return sorted(self.functions.values(), key=lambda function: (function.first, function.name))


class Covered:
    """What runs have executed of a program, by source files. `executed` has the addresses, each with what was done there. `placeless` says
    how many instructions have no source line."""

    def __init__(self, path, code: Code, executed: Dict[int, int], places: Places):
        self.by_name: Dict[str, SourceFile] = {}
        self.code, self.executed, self.paths = code, executed, places.paths
        self.begins = {function.value for function in code.elf.functions}
        self.outer: Optional[Tuple[str, str]] = None
        self.unnamed: List[Tuple[int, Place]] = []
        self.table: LineTable = places.table
        self.blocks, self.placeless = blocks_of(code, self.executed), 0
        for some in in_parts(code.instructions(list(self.executed)), AT_ONCE):
            places.learn(hexadecimal(one.address) for one in some)
            for instruction in some:
                self.add(instruction, self.places_of(instruction.address, places.at(hexadecimal(instruction.address))))
            places.known.clear()
        if not self.by_name:
            raise Fault(f"{path}: it has no source lines: compile and link it with -g")
        self.name_unnamed()

    def places_of(self, address, told: List[Place]) -> List[Place]:
        """What addr2line says of an address, but for the file and the line of the innermost place, which are the line table's."""
        found = self.table.row(address)
        if found is None or not found.path:
            return told
        path, line = found.path, found.line
        place = Place(told[0].function if told else UNNAMED, path, self.paths.name(path), line)
        if told and told[0].line == line and not os.path.isabs(path) and os.path.basename(told[0].path) == os.path.basename(path):
            place = told[0]  # the path of the table may begin where the unit was compiled, which only addr2line knows
        return [place, *told[1:]]

    @property
    def files(self) -> List[SourceFile]:
        return [self.by_name[name] for name in sorted(self.by_name)]

    def add(self, instruction: Instruction, told: List[Place]):
        """Adds an instruction with its places, from the innermost call that is inlined out to the function that has the code."""
        sides = self.executed.get(instruction.address, 0)
        for depth, place in enumerate(told):
            function = self.function_of(instruction, place, depth == len(told) - 1)
            if place.function == UNNAMED:
                self.unnamed.append((instruction.address, place))
            self.add_to(self.line_of(place.file, place.line, function), function, instruction, sides)
        if instruction.is_branch and told:
            self.by_name[told[0].file].lines[told[0].line].branches.append(self.branch(instruction, sides))
        self.placeless += not told

    def name_unnamed(self):
        """Adds instructions whose function addr2line doesn't know to that of the symbol table: in the file that has it, or else in the file
        of its last instruction."""
        for address, place in reversed(self.unnamed):
            name = self.code.elf.function_at(address)
            if not name:
                continue
            files = [file for file in self.by_name.values() if name in file.functions] or [self.by_name[place.file]]
            if len(files) > 1:
                continue
            function = files[0].functions.setdefault(name, Function(name))
            if files[0].name == place.file:
                function.take(place.line)
            block = self.blocks.at(address)
            function.blocks[block] = function.blocks.get(block, False) or address in self.executed
            line = self.by_name[place.file].lines[place.line]
            line.function = line.function or name

    def add_to(self, line: Line, function: Optional[Function], instruction: Instruction, sides: int):
        block = self.blocks.at(instruction.address)
        if function:
            function.blocks[block] = function.blocks.get(block, False) or bool(sides)
        line.is_executed, line.has_unexecuted = line.is_executed or bool(sides), line.has_unexecuted or not sides
        line.blocks.add(block)

    def branch(self, instruction: Instruction, sides: int) -> Branch:
        return Branch(sides, self.blocks.at(instruction.address), self.blocks.leading(instruction.next),
                      self.blocks.leading(instruction.target))

    def line_of(self, file: str, number: int, function: Optional[Function]) -> Line:
        lines = self.file_of(file).lines
        if number not in lines:
            lines[number] = Line(function.name if function else "")
        return lines[number]

    def file_of(self, name) -> SourceFile:
        if name not in self.by_name:
            self.by_name[name] = SourceFile(name)
        return self.by_name[name]

    def function_of(self, instruction: Instruction, place: Place, is_outer: bool) -> Optional[Function]:
        """The function of a place, which is in the file where its code begins: a part of it may be included from another one."""
        if place.function == UNNAMED:
            return None
        file = place.file
        if is_outer:
            if self.outer is None or self.outer[0] != place.function or instruction.address in self.begins:
                self.outer = (place.function, place.file)
            file = self.outer[1]
        functions = self.file_of(file).functions
        if place.function not in functions:
            functions[place.function] = Function(place.function)
        function = functions[place.function]
        if place.file == file:
            function.take(place.line)
        return function


class Blocks:
    """The numbers of blocks, each of which begins at one of `starts`."""

    def __init__(self, starts: List[int]):
        self.starts, self.numbers = starts, {start: number for number, start in enumerate(starts)}

    def at(self, address) -> int:
        """The block of an instruction."""
        return bisect.bisect_right(self.starts, address) - 1

    def leading(self, address) -> Optional[int]:
        """The block that begins at an address."""
        return self.numbers.get(address)


def blocks_of(code: Code, executed: Iterable[int]) -> Blocks:
    """A block begins where a function does, at the target of a branch or a jump, and after each of them."""
    starts, every, after = set(code.starts), set(), None
    for instruction in code.instructions(list(executed)):
        every.add(instruction.address)
        if instruction.address != after:
            starts.add(instruction.address)
        if instruction.target is not None:
            starts.add(instruction.target)
        after = None if may_jump(instruction.word) else instruction.next
    return Blocks(sorted(starts & every))


def in_parts(items: Iterable, size: int) -> Iterator[list]:
    iterator = iter(items)
    return iter(lambda: list(itertools.islice(iterator, size)), [])


def hexadecimal(address: int) -> str:
    return f"0x{address:08x}"
