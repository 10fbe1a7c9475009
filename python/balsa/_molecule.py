"""A molecule that was read."""

from __future__ import annotations

import struct
from typing import Iterator, NamedTuple, Optional, Sequence, Tuple, Union

from . import _native
from ._bytes import as_bytes
from ._native import ATOM_TABLE, BOND_TABLE, DIFFERENT, PLACED, give, lib, size, take
from ._refusal import Refusal

_NOT_MATCHING = 12


class Atom(NamedTuple):
    """An atom: atomic number (0 for `*`), 1 if selected (aromatic), isotope, hydrogens, charge, extension, tetrahedral mark.

    The mark is 0 for none, 1 for `@`, 2 for `@@`; it speaks of the hydrogen, if there is one, and then the
    bonds by ascending number.

    >>> from balsa import Molecule
    >>> Molecule("N[C@@H](C)C(=O)O").atoms[1]
    Atom(element=6, selected=0, isotope=0, hydrogens=1, charge=0, extension=0, mark=1)
    """

    element: int
    selected: int
    isotope: int
    hydrogens: int
    charge: int
    extension: int
    mark: int


class Bond(NamedTuple):
    """A bond: its ends, the lower atom number first, and its kind (0 elided, 1, 2, 3, 4 for `/`, 5 for `\\`)."""

    first: int
    second: int
    kind: int


class Written(NamedTuple):
    """A written molecule: the text, and each atom's number in it."""

    text: str
    renumbering: Tuple[int, ...]


class Sameness(NamedTuple):
    """What shows that two molecules are the same compound: a matching of each, and each atom of the first by
    its number in the second."""

    row1: Tuple[int, ...]
    row2: Tuple[int, ...]
    renumbering: Tuple[int, ...]


_ATOM = struct.Struct(f"={len(Atom._fields)}i")
_BOND = struct.Struct(f"={len(Bond._fields)}i")
_ATOM_BYTES = _ATOM.size
_BOND_BYTES = _BOND.size
assert (_ATOM_BYTES, _BOND_BYTES) == (4 * _native.ATOM_CELLS, 4 * _native.BOND_CELLS)


class Molecule:
    """A molecule. It does not change; molecules with the same tables, number by number, are equal.

    >>> from balsa import Molecule
    >>> furan = Molecule("o1cccc1")
    >>> furan.atoms[0]
    Atom(element=8, selected=1, isotope=0, hydrogens=0, charge=0, extension=0, mark=0)
    >>> furan.bonds[-1]
    Bond(first=0, second=4, kind=0)
    >>> furan.kekulized()
    Molecule('O1C=CC=C1')

    A text is a str or bytes; Refusal is raised where it is refused.
    """

    __slots__ = ("_atoms", "_bonds", "_overfull")

    def __init__(self, text: Union[str, bytes]) -> None:
        if type(text) is not bytes:
            text = as_bytes(text)
        lent = take()
        try:
            reply = lib.balsa_read(text, size(len(text)), *lent.tables_lent)
            code = reply.code
            if code:
                raise Refusal(code, reply.place if code in PLACED else None, text)
            self._keep(lent, _ATOM_BYTES * reply.atoms, _BOND_BYTES * reply.bonds, reply.overfull)
        finally:
            give(lent)

    def _keep(self, lent, atom_bytes, bond_bytes, overfull):
        """Keeps so many bytes of the tables: the used rows."""
        self._atoms = lent.atoms[:atom_bytes].tobytes()
        self._bonds = lent.bonds[:bond_bytes].tobytes()
        self._overfull = overfull

    def _lend(self, lent):
        """Puts the tables in the buffers; the arguments that lend them, with their counts."""
        atoms, bonds = self._atoms, self._bonds
        lent.atoms[: len(atoms)] = atoms
        lent.bonds[: len(bonds)] = bonds
        return (*lent.tables_lent, size(len(atoms) // _ATOM_BYTES), size(len(bonds) // _BOND_BYTES))

    def _counts(self):
        return len(self._atoms) // _ATOM_BYTES, len(self._bonds) // _BOND_BYTES

    @property
    def atoms(self) -> Tuple[Atom, ...]:
        """The atoms, a tuple of Atom."""
        return tuple(map(Atom._make, _ATOM.iter_unpack(self._atoms)))

    @property
    def bonds(self) -> Tuple[Bond, ...]:
        """The bonds, a tuple of Bond."""
        return tuple(map(Bond._make, _BOND.iter_unpack(self._bonds)))

    @property
    def overfull(self) -> int:
        """How many atoms outside brackets were over-full in the text: their bond sum is above every
        target valence.

        >>> from balsa import Molecule
        >>> Molecule("FC(F)(F)(F)F").overfull
        1
        """
        return self._overfull

    def matchings(self) -> Iterator[Tuple[int, ...]]:
        """All matchings in order: an iterator of rows, 1 for each bond that becomes double."""
        step = lib.balsa_first
        _, bonds = self._counts()
        row = bytes(bonds)
        while True:
            lent = take()
            try:
                lent.row[:bonds] = row
                code = step(*self._lend(lent), *lent.row_lent)
                row = lent.row[:bonds].tobytes()
            finally:
                give(lent)
            if code:
                return
            yield tuple(row)
            step = lib.balsa_next

    def kekulized(self, matching: Optional[Sequence[int]] = None) -> Molecule:
        """The molecule with the bonds of a matching double and no atom selected: the first one where
        none is given. Refusal 12 where the row is not a matching; 20 where marks place two neighbours of
        an end of a new double bond on the same side.

        >>> from balsa import Molecule
        >>> benzene = Molecule("c1ccccc1")
        >>> [benzene.kekulized(row).text for row in benzene.matchings()]
        ['C1=CC=CC=C1', 'C=1C=CC=CC1']
        """
        lent = take()
        try:
            arguments = (*self._lend(lent), *lent.row_lent)
            if matching is None:
                _accept(lib.balsa_first(*arguments))
            else:
                row = _row(matching, self._counts()[1])
                lent.row[: len(row)] = row
            _accept(lib.balsa_kekulize(*arguments))
            made = object.__new__(type(self))
            made._keep(lent, len(self._atoms), len(self._bonds), self._overfull)
            return made
        finally:
            give(lent)

    def sides(self) -> Tuple[int, ...]:
        """The row of sides: 1 at each double bond whose two ends have their lowest marked neighbours on
        the same side, 2 if on opposite sides, else 0.

        >>> from balsa import Molecule
        >>> Molecule("F/C=C/F").sides()
        (0, 2, 0)
        """
        lent = take()
        try:
            _accept(lib.balsa_sides(*self._lend(lent), *lent.row_lent))
            return tuple(lent.row[: self._counts()[1]])
        finally:
            give(lent)

    def same_compound(self, other: Molecule) -> Optional[Sameness]:
        """Whether another molecule is the same compound, drawn differently: some matching of each makes both
        the same molecule under some renumbering. The first matchings that do and the smallest renumbering, or
        None. Marks are left aside. Refusal 19 where a molecule has over 64 atoms.

        >>> from balsa import Molecule
        >>> benzene = Molecule("c1ccccc1")
        >>> benzene.same_compound(Molecule("C=1C=CC=CC1"))
        Sameness(row1=(1, 0, 1, 0, 1, 0), row2=(0, 0, 0, 0, 0, 0), renumbering=(0, 5, 4, 3, 2, 1))
        >>> benzene.same_compound(Molecule("C1CCCCC1")) is None
        True

        Two drawings without selected atoms whose double bonds lie differently are not the same, though both
        may be the same as one with selected atoms:

        >>> xylene = Molecule("Cc1c(C)cccc1")
        >>> one, two = Molecule("CC1=C(C)C=CC=C1"), Molecule("CC=1C(C)=CC=CC1")
        >>> [bool(a.same_compound(b)) for a, b in [(xylene, one), (xylene, two), (one, two)]]
        [True, True, False]
        """
        if not isinstance(other, Molecule):
            raise TypeError(f"a molecule is compared with a Molecule, not {type(other).__name__}")
        lent, lent2 = take(), take()
        try:
            rows = *lent.row_lent, *lent2.row_lent
            code = lib.balsa_same(*self._lend(lent), *other._lend(lent2), *rows, *lent.numbers_lent)
            if code == DIFFERENT:
                return None
            _accept(code)
            (atoms, bonds), (_, bonds2) = self._counts(), other._counts()
            numbers = struct.unpack_from(f"={atoms}H", lent.renumbering)
            return Sameness(tuple(lent.row[:bonds]), tuple(lent2.row[:bonds2]), numbers)
        finally:
            give(lent)
            give(lent2)

    @property
    def key(self) -> int:
        """A number below 2 ** 64 that all redrawings of the molecule have: other numbers of its atoms, other
        Kekulé forms or selected letters, hydrogens drawn as atoms, extensions and marks do not change it.
        Molecules with different keys are no redrawings; those with the same key need not be any.

        >>> from balsa import Molecule
        >>> Molecule("CC1=C(C)C=CC=C1").key == Molecule("CC=1C(C)=CC=CC1").key
        True
        >>> Molecule("CCO").key == Molecule("COC").key
        False
        """
        lent = take()
        try:
            reply = lib.balsa_key(*self._lend(lent))
            _accept(reply.code)
            return reply.key
        finally:
            give(lent)

    @property
    def text(self) -> str:
        """The molecule as text. Refusal 14, 15 or 16 where it cannot be written.

        >>> from balsa import Molecule
        >>> Molecule("C(C)(O)").text
        'C(C)O'
        """
        lent = take()
        try:
            return self._write(lent)
        finally:
            give(lent)

    def written(self) -> Written:
        """The text together with each atom's number in it.

        >>> from balsa import Molecule
        >>> Molecule("C1.O.C1").written()
        Written(text='CC.O', renumbering=(0, 2, 1))
        """
        lent = take()
        try:
            text = self._write(lent)
            return Written(text, struct.unpack_from(f"={self._counts()[0]}H", lent.renumbering))
        finally:
            give(lent)

    def _write(self, lent):
        reply = lib.balsa_write(*self._lend(lent), *lent.out_lent)
        _accept(reply.code)
        return str(lent.text[: reply.length], "ascii")

    def __eq__(self, other):
        if not isinstance(other, Molecule):
            return NotImplemented
        return self._atoms == other._atoms and self._bonds == other._bonds

    def __hash__(self):
        return hash((self._atoms, self._bonds))

    def __repr__(self):
        try:
            return f"Molecule({self.text!r})"
        except Refusal:
            return "<Molecule of %d atoms and %d bonds>" % self._counts()

    def __reduce__(self):
        return _restored, (type(self), self._atoms, self._bonds, self._overfull)


for _public in (Atom, Bond, Written, Sameness, Molecule):
    _public.__module__ = "balsa"


def _restored(kind, atoms, bonds, overfull):
    """A molecule out of a pickle."""
    if len(atoms) > 4 * ATOM_TABLE or len(bonds) > 4 * BOND_TABLE:
        raise ValueError("the tables are too long")
    made = object.__new__(kind)
    made._atoms, made._bonds, made._overfull = atoms, bonds, overfull
    return made


def _accept(code):
    if code:
        raise Refusal(code)


def _row(matching, bonds):
    """A matching as bytes; with another length, or with cells that no byte holds, it is none."""
    if isinstance(matching, (str, int)):
        raise TypeError(f"a matching is a sequence of 0 and 1, not {type(matching).__name__}")
    try:
        row = bytes(matching)
    except ValueError:
        raise Refusal(_NOT_MATCHING) from None
    if len(row) != bonds:
        raise Refusal(_NOT_MATCHING)
    return row
