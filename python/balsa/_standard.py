"""One call from a text to the text kekulized."""

from __future__ import annotations

from typing import Union

from ._bytes import as_bytes
from ._native import PLACED, give, lib, size, take
from ._refusal import Refusal


def standardize(text: Union[str, bytes]) -> str:
    """The text kekulized by its first matching, as `Molecule(text).kekulized().text` gives it, in one call.

    >>> import balsa
    >>> balsa.standardize("c1ccccc1O")
    'C1=CC=CC=C1O'
    """
    text = as_bytes(text)
    lent = take()
    try:
        reply = lib.balsa_standardize(text, size(len(text)), *lent.text_lent)
        code = reply.code
        if code:
            raise Refusal(code, reply.place if code in PLACED else None, text)
        return lent.text[: reply.length].tobytes().decode("ascii")
    finally:
        give(lent)


standardize.__module__ = "balsa"
