"""What compares depend on, as runs with one byte changed show, and the bytes that make them come out otherwise."""
from __future__ import annotations

from typing import Dict, Iterator, List, Optional, Set, Tuple

from replaycheck.guest.rv32 import signed

from .outcomes import Comparisons
from .tries import Pair

SHIFTS = (0, 8, 16, 24)  # where a byte may be in an operand
SIGNS = (1, -1)  # whether a byte is added to an operand or taken away
ALL = 0xFFFFFFFF
NEAR = (0, 1, -1)  # equal to the other operand, greater by one, smaller by one
MOST_GUARDS = 12  # compares of an input that are kept equal
MOST_AT_ONE = 12  # compares at one address that are solved: the first ones and the last ones
FARTHEST = 2048  # bytes that an input gets longer or shorter by at once
BEYOND = 16  # bytes after the last one that a compare depends on
IDLE = 0xFF  # what bytes become that no compare depends on


class Guard:
    """A compare that came out equal and of which an operand is made of bytes only: its step, the operand (0 or 1), the offset of the byte
    at each shift, and the sign: whether they are added to the operand or taken away."""

    __slots__ = ("step", "side", "parts", "sign")

    def __init__(self, step: int, side: int, parts: Dict[int, int], sign=1):
        self.step, self.side, self.parts, self.sign = step, side, parts, sign

    def repaired(self, content: bytes, pair: Pair) -> Optional[bytes]:
        """An input with the bytes that make the compare equal again."""
        operands = pair.others
        wanted = operands[1 - self.side] - operands[self.side]
        return None if max(self.parts.values()) >= len(content) else moved(content, self.parts, self.sign * wanted)


class Compare:
    """A compare of a run: its operands, and by the offset of a byte of the input how that was changed and how that changes the operands.
    `longer` has the changes of the operands by an input that is a byte longer."""

    __slots__ = ("step", "pc", "operands", "moves", "longer")

    def __init__(self, pair: Pair):
        self.step, self.pc, self.operands = pair.step, pair.pc, pair.mine
        self.moves: Dict[int, Tuple[int, List[int]]] = {}
        self.longer = [0, 0]

    def parts(self, side: int, sign: int) -> Dict[int, int]:
        """The byte at each shift that an operand is made of: it moves by as much as the byte, or by as much the other way, as the sign
        says."""
        return {shift: offset for offset, (change, moves) in self.moves.items() if moves[side]
                for shift in SHIFTS if (sign * change << shift) & ALL == moves[side]}

    def guards(self) -> Iterator[Guard]:
        """How an equal compare can be made equal again. Bytes that an operand depends on without many others come first: those of a length
        or a sum."""
        if self.operands[0] != self.operands[1] or len(self.moves) < 2:
            return
        found = []
        for side in (0, 1):
            count = sum(1 for _, moves in self.moves.values() if moves[side])
            for sign in SIGNS:
                parts = self.parts(side, sign)
                if parts:
                    found.append((count - len(parts), Guard(self.step, side, parts, sign)))
        yield from (guard for _, guard in sorted(found, key=lambda ranked: ranked[0]))


class Compares:
    """The compares of an input's run that some change of the input moves, by their steps."""

    def __init__(self, content: bytes, comparisons: Comparisons):
        self.content, self.comparisons = content, comparisons
        self.found: Dict[int, Compare] = {}

    def at(self, pair: Pair) -> Compare:
        if pair.step not in self.found:
            self.found[pair.step] = Compare(pair)
        return self.found[pair.step]

    def add(self, offset: int, change: int, pairs: List[Pair]):
        """Adds what the change of a byte moves, where that isn't known."""
        for pair in pairs:
            self.at(pair).moves.setdefault(offset, (change, differences(pair)))

    def add_longer(self, pairs: List[Pair]):
        """Adds what one byte more moves, where that isn't known."""
        for pair in pairs:
            compare = self.at(pair)
            if compare.longer == [0, 0]:
                compare.longer = differences(pair)

    def guards(self) -> List[Guard]:
        found = [guard for step in sorted(self.found) for guard in self.found[step].guards()]
        return found[:MOST_GUARDS]

    def in_order(self) -> Iterator[Compare]:
        """The compares in the order of their steps, without some of those at an address that has many."""
        steps: Dict[int, List[int]] = {}
        for step in sorted(self.found):
            steps.setdefault(self.found[step].pc, []).append(step)
        chosen = {kept for those in steps.values() for kept in (*those[:MOST_AT_ONE], *those[-MOST_AT_ONE:])}
        yield from (self.found[step] for step in sorted(chosen))

    def solved(self, most: int) -> Iterator[Tuple[bytes, Compare]]:
        """The inputs by which compares come out otherwise, none twice, each with its compare. The last compare comes first: of an input
        with many parts the last one changes, and there is room before it for what another one has to say."""
        known = {self.content}
        for compare in reversed(list(self.in_order())):
            for side in (0, 1):
                for content in (*self.lengths(compare, side, most), *self.contents(compare, side)):
                    if content is not None and content not in known:
                        known.add(content)
                        yield content, compare

    def contents(self, compare: Compare, side: int) -> Iterator[Optional[bytes]]:
        for sign in SIGNS:
            parts = compare.parts(side, sign)
            if parts:
                for near in NEAR:
                    yield moved(self.content, parts, sign * (compare.operands[1 - side] - compare.operands[side] + near))
                if self.comparisons.at(compare.pc).is_signed:
                    yield moved(self.content, parts, sign * (-1 - compare.operands[side]), wraps=True)

    def lengths(self, compare: Compare, side: int, most: int) -> Iterator[bytes]:
        """Inputs of other lengths, where the length moves an operand."""
        each = signed(compare.longer[side], 32)
        for near in NEAR if each else ():
            more = (signed(compare.operands[1 - side], 32) + near - signed(compare.operands[side], 32)) // each
            length = len(self.content) + more
            if abs(more) < FARTHEST and 1 <= length <= most:
                yield self.content[:length].ljust(length, b"\0")

    def tokens(self) -> Iterator[bytes]:
        """The values that bytes are compared with, as they would be in the input."""
        for compare in self.in_order():
            for side in (0, 1):
                parts = compare.parts(side, 1)
                if parts:
                    yield token(compare.operands[1 - side], parts)

    # ---- which bytes they depend on

    @property
    def moving(self) -> Set[int]:
        """The offsets of bytes that compares depend on."""
        return {offset for compare in self.found.values() for offset in compare.moves}

    def end(self) -> int:
        """An offset soon after the last byte that a compare depends on."""
        return max(self.moving, default=-1) + 1 + BEYOND

    def without_idle(self, most: int) -> bytes:
        """The input with other bytes for those that no compare depends on, of the first ones, which were changed to see that."""
        moving, most = self.moving, min(most, self.end())
        return bytes(byte if at in moving or at >= most else IDLE for at, byte in enumerate(self.content))


def differences(pair: Pair) -> List[int]:
    return [(other - mine) & ALL for mine, other in zip(pair.mine, pair.others)]


def moved(content: bytes, parts: Dict[int, int], wanted: int, wraps=False) -> Optional[bytes]:
    """An input whose operand, which some bytes are parts of, is greater by a number; None if these bytes have no room for it, unless it
    wraps around."""
    value, mask = wanted, 0
    for shift, offset in parts.items():
        value += content[offset] << shift
        mask |= 0xFF << shift
    value &= ALL
    if value & ~mask and not wraps:
        return None
    found = bytearray(content)
    for shift, offset in parts.items():
        found[offset] = value >> shift & 0xFF
    return bytes(found)


def token(value: int, parts: Dict[int, int]) -> bytes:
    """The bytes of a number, in the order in which the input has those of the operand."""
    size = 1 if value < 1 << 8 else 2 if value < 1 << 16 else 4
    shifts = sorted(parts)
    is_little = len(parts) < 2 or parts[shifts[0]] < parts[shifts[1]]
    return value.to_bytes(size, "little" if is_little else "big")
