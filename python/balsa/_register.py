"""A register of entries, each a tag and a body, and whether a text is withdrawn by one of them."""

from __future__ import annotations

import ctypes
from typing import NamedTuple, Optional, Union

from ._bytes import as_bytes
from ._native import CLEAR, PLACED, REGISTER, WITHDRAWN, lib
from ._refusal import Refusal


class Withdrawn(NamedTuple):
    """Whether a compound is withdrawn. Release it where `is_clear`, and on nothing else.

    `answer` is "clear", "withdrawn" or "undecided"; `entry` the place of the entry that it is withdrawn by, or
    that could not be decided, `tag` that entry's tag where it is withdrawn, else None. False where it is
    clear, True otherwise.
    """

    answer: str
    entry: Optional[int] = None
    tag: Optional[int] = None

    @property
    def is_clear(self) -> bool:
        """Whether the compound may be released."""
        return self.answer == "clear"

    def __bool__(self):
        return not self.is_clear

    def __str__(self):
        named = [("entry", self.entry), ("tag", self.tag)]
        return ", ".join([self.answer] + [f"{name} {number}" for name, number in named if number is not None])


Withdrawn.__module__ = "balsa"


class Register:
    """A register in memory: an empty one, or the one that stands in the bytes handed in, which are copied.

    >>> from balsa import Register
    >>> register = Register()
    >>> register.add(7, "c1ccccc1")
    >>> list(register)
    [(7, b'c1ccccc1')]
    >>> Register(bytes(register)) == register
    True

    It is for one thread at a time. For a register in a file that survives a power cut see `balsa register` or Rust's RegisterFile.
    """

    __hash__ = None

    def __init__(self, data: Optional[bytes] = None) -> None:
        if data is None:
            self._cells = (ctypes.c_uint8 * REGISTER)()
            self.empty()
        else:
            data = as_bytes(data)
            self._cells = (ctypes.c_uint8 * len(data)).from_buffer_copy(data)
            self._look_up(0)

    def __bytes__(self) -> bytes:
        return bytes(self._cells)

    def empty(self) -> None:
        """Takes all entries away."""
        _accept(lib.balsa_register_empty(self._cells, len(self._cells)))

    def add(self, tag: int, body: Union[str, bytes]) -> None:
        """Adds an entry: a tag from 0 to 65535 and a body. Refusal 18 where there is no room."""
        _check_tag(tag)
        body = as_bytes(body)
        _accept(lib.balsa_register_add(self._cells, len(self._cells), tag, body, len(body)))

    def withdraw(self, tag: int, text: Union[str, bytes]) -> None:
        """Withdraws a text: adds it, if it is one that is read. Reading's refusals, with their places, then 18."""
        _check_tag(tag)
        text = as_bytes(text)
        reply = lib.balsa_withdraw(self._cells, len(self._cells), tag, text, len(text))
        _accept_text(reply, text)

    def withdrawn(self, text: Union[str, bytes]) -> Withdrawn:
        """Whether a text is withdrawn: whether an entry draws its compound, in any drawing. Reading's refusals,
        with their places.

        >>> from balsa import Register
        >>> register = Register()
        >>> register.withdraw(7, "CC1=C(C)C=CC=C1")
        >>> register.withdrawn("CC=1C(C)=CC=CC1")
        Withdrawn(answer='withdrawn', entry=0, tag=7)
        >>> register.withdrawn("Cc1cccc(C)c1").is_clear
        True
        """
        text = as_bytes(text)
        reply = lib.balsa_withdrawn(self._cells, len(self._cells), text, len(text))
        _accept_text(reply, text)
        if reply.answer == CLEAR:
            return Withdrawn("clear")
        if reply.answer == WITHDRAWN:
            return Withdrawn("withdrawn", reply.entry, reply.tag)
        return Withdrawn("undecided", reply.entry)

    def _look_up(self, place):
        """What the library says of the entry at a place."""
        reply = lib.balsa_register_entry(self._cells, len(self._cells), place)
        _accept(reply.code)
        return reply

    def __len__(self) -> int:
        return self._cells[1]

    def __getitem__(self, place):
        """The tag and the body of an entry; places from the end are negative, as in a list."""
        count = len(self)
        if isinstance(place, slice):
            return [self[i] for i in range(*place.indices(count))]
        if not -count <= place < count:
            raise IndexError("no such entry")
        found = self._look_up(place % count)
        return found.tag, bytes(self._cells[found.start : found.start + found.length])

    def __eq__(self, other):
        if not isinstance(other, Register):
            return NotImplemented
        return list(self) == list(other)

    def __repr__(self):
        return f"<Register of {len(self)} entries>"

    def __reduce__(self):
        return type(self), (bytes(self),)


Register.__module__ = "balsa"


def _check_tag(tag):
    if not isinstance(tag, int):
        raise TypeError(f"a tag is an int, not {type(tag).__name__}")
    if not 0 <= tag <= 0xFFFF:
        raise ValueError("a tag is a number from 0 to 65535")


def _accept(code):
    if code:
        raise Refusal(code)


def _accept_text(reply, text):
    code = reply.code
    if code:
        raise Refusal(code, reply.place if code in PLACED else None, text)
