"""The input of a run: a sequence of bytes, each change of which is an edit."""
from __future__ import annotations

from typing import TYPE_CHECKING, Iterable, Sequence, Union, cast, overload

from replaycheck.scripting.errors import Usage

if TYPE_CHECKING:
    from replaycheck.scripting.runs import Run


class Input(Sequence[int]):
    """The bytes of the input as edits have left them."""

    def __init__(self, run: Run) -> None:
        self._run = run

    def __repr__(self) -> str:
        return f"<input of {len(self)} bytes>"

    def __len__(self) -> int:
        return len(self._run._scenario.input)

    def __bytes__(self) -> bytes:
        return bytes(self._run._scenario.input)

    def __eq__(self, other: object) -> bool:
        if not isinstance(other, (bytes, bytearray, Input)):
            return NotImplemented
        return bytes(self) == bytes(other)

    __hash__ = None  # type: ignore[assignment]

    @overload
    def __getitem__(self, at: int) -> int: ...

    @overload
    def __getitem__(self, at: slice) -> bytes: ...

    def __getitem__(self, at: Union[int, slice]) -> Union[int, bytes]:
        found = self._run._scenario.input[at]
        return bytes(found) if isinstance(at, slice) else found

    def __setitem__(self, at: Union[int, slice], value: Union[int, bytes]) -> None:
        """Sets a byte, or as many bytes as there are at a slice: the length stays.

        # Errors

        `IndexError`, `Usage` for another length or a value that is no byte, `OutOfMemory`."""
        places = range(len(self))[at]
        if isinstance(places, int):
            places, value = range(places, places + 1), bytes_of([value])
        value = bytes_of(value)
        if len(places) != len(value):
            raise Usage(f"input: {len(value)} bytes in place of {len(places)}: append and pop change the length")
        self._run.edit(*(f"input {place} {byte}" for place, byte in zip(places, value)))

    def append(self, byte: int) -> None:
        """Adds a byte at the end."""
        self._run.edit(f"input append {bytes_of([byte])[0]}")

    def extend(self, data: bytes) -> None:
        """Adds bytes at the end."""
        self._run.edit(*(f"input append {byte}" for byte in bytes_of(data)))

    def pop(self) -> int:
        """Removes the last byte, and returns it.

        # Errors

        `Refused` with the number 3 if there is none."""
        last = self[-1] if len(self) else 0
        self._run.edit("input cut")
        return last


def bytes_of(value: object) -> bytes:
    """Returns values as bytes.

    # Errors

    `Usage` for anything else."""
    try:
        return bytes(iter(cast(Iterable[int], value)))  # of a number bytes() would make that many zeros
    except (TypeError, ValueError) as fault:
        raise Usage(f"input: no byte: {value!r}: {fault}") from None
