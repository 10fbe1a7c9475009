"""The report of the lines of an input."""

from __future__ import annotations

import ctypes
from typing import Union

from ._bytes import as_bytes
from ._native import lib
from ._refusal import Refusal


def report(lines: Union[str, bytes]) -> bytes:
    r"""The report of the lines of a str or bytes, as the proved program `report` writes it, as bytes.

    >>> import balsa
    >>> print(balsa.report("c1ccccc1\nC11\n").decode())
    balsa report
    1: 0 6 6 0 101010 C1=CC=CC=C1
    2: 7 2
    accepted 1 refused 1
    <BLANKLINE>
    """
    lines = as_bytes(lines)
    length = lib.balsa_report_length(lines, len(lines))
    out = ctypes.create_string_buffer(length)
    reply = lib.balsa_report(lines, len(lines), out, length)
    if reply.code:
        raise Refusal(reply.code)
    return out.raw


report.__module__ = "balsa"
