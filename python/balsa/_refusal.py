"""Why a call says no."""

from __future__ import annotations

from typing import Optional

from . import _native

# The most bytes of a text that a message shows, and what stands where it is cut.
_SHOWN = 72
_CUT = "..."


class Refusal(ValueError):
    """A call was refused: `code` is the number of the rules, `place` the offset of a byte in the text
    or None where there is none, `message` the reason in words, `text` what was read, if anything was.

    >>> from balsa import Molecule, Refusal
    >>> try:
    ...     Molecule("C1CC")
    ... except Refusal as refusal:
    ...     print(refusal.code, refusal.place, refusal.message)
    10 1 a bridge is open at the end
    """

    def __init__(self, code: int, place: Optional[int] = None, text: Optional[bytes] = None) -> None:
        super().__init__(code, place, text)
        self.code = code
        self.place = place
        self.text = text
        self.message = _words(code)

    def __reduce__(self):
        return type(self), (self.code, self.place, self.text)

    def __str__(self):
        at = "" if self.place is None else f" at byte {self.place}"
        told = f"refusal {self.code}{at}: {self.message}"
        if not self.text:
            return told
        line, column = _excerpt(self.text, self.place)
        caret = "" if column is None else f"\n  {'':{column}}^"
        return f"{told}\n  {line}{caret}"


Refusal.__module__ = "balsa"


def _words(code):
    words = _native.lib.balsa_refusal_text(code)
    if words is None:
        raise ValueError(f"{code} is no refusal of the rules")
    return words.decode("ascii")


def _excerpt(text, place):
    """A part of the text in one line, a column for each byte, and the column of the place."""
    start = max(0, min((place or 0) - _SHOWN // 2, len(text) - _SHOWN))
    end = min(len(text), start + _SHOWN)
    before = _CUT if start > 0 else ""
    after = _CUT if end < len(text) else ""
    shown = "".join(chr(byte) if 32 <= byte < 127 else "?" for byte in text[start:end])
    column = None if place is None else len(before) + place - start
    return before + shown + after, column
