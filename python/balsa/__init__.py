"""Balsa text, a line notation for molecules of the SMILES family, by a proved library.

>>> import balsa
>>> benzene = balsa.Molecule("c1ccccc1")
>>> len(benzene.atoms), len(benzene.bonds)
(6, 6)
>>> list(benzene.matchings())
[(1, 0, 1, 0, 1, 0), (0, 1, 0, 1, 0, 1)]
>>> benzene.kekulized().text
'C1=CC=CC=C1'

The same in one call, from text to text:

>>> balsa.standardize("c1ccccc1")
'C1=CC=CC=C1'

Two drawings of a compound are found out, with a renumbering from one to the other:

>>> benzene.same_compound(balsa.Molecule("C=1C=CC=CC1")).renumbering
(0, 5, 4, 3, 2, 1)

What is refused is told with its number, its place and a caret:

>>> balsa.Molecule("C11")
Traceback (most recent call last):
    ...
balsa.Refusal: refusal 7 at byte 2: a bridge joins an atom to itself
  C11
    ^

A register of withdrawn texts knows every drawing of a compound; release what is clear, and nothing else:

>>> register = balsa.Register()
>>> register.withdraw(7, "CC1=C(C)C=CC=C1")
>>> register.withdrawn("CC=1C(C)=CC=CC1")
Withdrawn(answer='withdrawn', entry=0, tag=7)

Molecules may be used from any threads at once, a register from one at a time.
"""

from ._molecule import Atom, Bond, Molecule, Sameness, Written
from ._native import lib as _lib
from ._refusal import Refusal
from ._register import Register, Withdrawn
from ._report import report
from ._standard import standardize

__all__ = ["Atom", "Bond", "EDITION", "Molecule", "Refusal", "Register", "Sameness", "Withdrawn", "Written", "report", "standardize"]
__version__ = _lib.balsa_version().decode("ascii")

#: The edition of the rules: it grows with each change of an answer.
EDITION = _lib.balsa_edition()
