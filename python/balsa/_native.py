"""The shared library: its limits, its calls and the buffers that they are lent.

What is here mirrors include/balsa.h; python/tests compares the two.
"""

import ctypes
import os

# Cells of an atom and of a bond.
ATOM_CELLS = 7
BOND_CELLS = 3
# Least lengths of what is lent (BALSA_ATOM_TABLE and so on).
ATOM_TABLE = 7000
BOND_TABLE = 3300
ROW = 1100
TEXT = 16384
RENUMBERING = 1000
# The most atoms of a molecule that is compared with another.
SAME_ATOMS = 64
# The code that ends an enumeration, and the one for molecules that are not the same.
END = 255
DIFFERENT = 254
# The refusals that are told at a place in the text.
PLACED = range(2, 11)

REGISTER = 32768
REGISTER_ENTRIES = 64
REGISTER_BODY = 4096

# The answers of balsa_withdrawn.
CLEAR = 0
WITHDRAWN = 1
UNDECIDED = 2


class ReadReply(ctypes.Structure):
    _fields_ = [
        ("code", ctypes.c_uint32),
        ("place", ctypes.c_size_t),
        ("atoms", ctypes.c_size_t),
        ("bonds", ctypes.c_size_t),
        ("overfull", ctypes.c_size_t),
    ]


class StandardReply(ctypes.Structure):
    _fields_ = ReadReply._fields_ + [("length", ctypes.c_size_t)]


class LengthReply(ctypes.Structure):
    """What balsa_write and balsa_report hand back."""

    _fields_ = [("code", ctypes.c_uint32), ("length", ctypes.c_size_t)]


class EntryReply(ctypes.Structure):
    _fields_ = [
        ("code", ctypes.c_uint32),
        ("found", ctypes.c_uint32),
        ("tag", ctypes.c_uint16),
        ("start", ctypes.c_size_t),
        ("length", ctypes.c_size_t),
    ]


class KeyReply(ctypes.Structure):
    _fields_ = [("code", ctypes.c_uint32), ("key", ctypes.c_uint64)]


class WithdrawReply(ctypes.Structure):
    _fields_ = [("code", ctypes.c_uint32), ("place", ctypes.c_size_t)]


class WithdrawnReply(ctypes.Structure):
    _fields_ = [
        ("code", ctypes.c_uint32),
        ("place", ctypes.c_size_t),
        ("answer", ctypes.c_uint32),
        ("tag", ctypes.c_uint16),
        ("entry", ctypes.c_size_t),
    ]


def _open():
    """The library beside this file, as a wheel has it, or the one that BALSA_LIBRARY names."""
    beside = os.path.join(os.path.dirname(os.path.abspath(__file__)), "libbalsa.so")
    path = os.environ.get("BALSA_LIBRARY") or beside
    try:
        return ctypes.CDLL(path)
    except OSError as error:
        hint = "c/make-shared makes libbalsa.so, BALSA_LIBRARY names it"
        raise ImportError(f"{error} ({hint})", name="balsa", path=path) from None


def _declare(library):
    """Gives each call its types. The calls on molecules have no types for what they are handed: that is
    always `bytes`, what `_lent` makes or a `size`, and to look at it anew takes as long as the call."""
    lent, size, code = ctypes.c_void_p, ctypes.c_size_t, ctypes.c_uint32
    read_only = ctypes.c_char_p
    for name, answer, arguments in [
        ("read", ReadReply, None),
        ("write", LengthReply, None),
        ("first", code, None),
        ("next", code, None),
        ("kekulize", code, None),
        ("same", code, None),
        ("sides", code, None),
        ("key", KeyReply, None),
        ("standardize", StandardReply, None),
        ("report", LengthReply, [read_only, size, lent, size]),
        ("report_length", size, [read_only, size]),
        ("register_empty", code, [lent, size]),
        ("register_add", code, [lent, size, ctypes.c_uint16, read_only, size]),
        ("register_entry", EntryReply, [lent, size, size]),
        ("withdraw", WithdrawReply, [lent, size, ctypes.c_uint16, read_only, size]),
        ("withdrawn", WithdrawnReply, [lent, size, read_only, size]),
        ("refusal_text", ctypes.c_char_p, [code]),
        ("version", ctypes.c_char_p, []),
        ("edition", ctypes.c_uint32, []),
    ]:
        function = getattr(library, "balsa_" + name)
        function.restype = answer
        function.argtypes = arguments
    return library


lib = _declare(_open())


# Usual counts and lengths, ready to be handed to a call.
_READY = 1024
_SIZES = tuple(map(ctypes.c_size_t, range(_READY)))


def size(number):
    """A count or a length as a call takes it."""
    return _SIZES[number] if number < _READY else ctypes.c_size_t(number)


def _lent(kind, length):
    """A buffer: its bytes to look at and to store, and the two arguments that lend it to a call."""
    cells = (kind * length)()
    return memoryview(cells).cast("B"), (ctypes.c_void_p(ctypes.addressof(cells)), ctypes.c_size_t(length))


class Buffers:
    """What the calls on one molecule are lent: the bytes of each buffer, and the arguments that lend it."""

    __slots__ = ("atoms", "bonds", "row", "text", "renumbering", "tables_lent", "row_lent", "numbers_lent", "text_lent", "out_lent")

    def __init__(self):
        self.atoms, atoms_lent = _lent(ctypes.c_int32, ATOM_TABLE)
        self.bonds, bonds_lent = _lent(ctypes.c_int32, BOND_TABLE)
        self.row, self.row_lent = _lent(ctypes.c_uint8, ROW)
        self.text, self.text_lent = _lent(ctypes.c_uint8, TEXT)
        self.renumbering, self.numbers_lent = _lent(ctypes.c_uint16, RENUMBERING)
        self.tables_lent = atoms_lent + bonds_lent
        self.out_lent = self.text_lent + self.numbers_lent


# Buffers that no call uses now. Taking from a list and adding to it are each one step in every
# thread, so calls in other threads, in generators and in signal handlers never share one.
_free = []


def take():
    """Buffers for one call; hand them back with `give`."""
    try:
        return _free.pop()
    except IndexError:
        return Buffers()


give = _free.append
