"""The module beside the header, the proved report and the golden words; types, pickles and threads.

    BALSA_LIBRARY=target/shared/lib/libbalsa.so PYTHONPATH=python python3 -m unittest discover -s python/tests
"""

import copy
import doctest
import os
import pickle
import re
import subprocess
import threading
import unittest

import balsa
from balsa import Molecule, Refusal, Register, Withdrawn, _native

ROOT = os.path.join(os.path.dirname(os.path.abspath(__file__)), "..", "..")


def content(path):
    with open(os.path.join(ROOT, path), "rb") as file:
        return file.read()


CORPUS = content("corpus/real.smi").split()
TEXTS = CORPUS + [b"C11", b"C1CC", b"cc", b"", b"C\x00", b"c1cccc1", b"x" * (_native.TEXT + 1)]
TEXTS += [b"N[C@@H](C)C(=O)O", b"F[C@](Cl)1Br.I1", b"C[S@](=O)C"]


def load_tests(loader, tests, pattern):
    tests.addTests(doctest.DocTestSuite(balsa))
    for readme in ["README.md", os.path.join("python", "README.md")]:
        tests.addTests(doctest.DocFileSuite(os.path.join(ROOT, readme), module_relative=False))
    return tests


def refused(call, *arguments):
    """The refusal that a call raises."""
    try:
        call(*arguments)
    except Refusal as refusal:
        return refusal
    raise AssertionError("accepted")


class Agreement(unittest.TestCase):
    def test_header(self):
        header = content("include/balsa.h").decode()
        numbers = dict(re.findall(r"BALSA_(\w+) = (\d+)", header))
        for name in ["ATOM_TABLE", "BOND_TABLE", "ROW", "TEXT", "RENUMBERING", "SAME_ATOMS", "END", "DIFFERENT"]:
            self.assertEqual(getattr(_native, name), int(numbers[name]), name)
        for name in ["REGISTER", "REGISTER_ENTRIES", "REGISTER_BODY", "CLEAR", "WITHDRAWN", "UNDECIDED"]:
            self.assertEqual(getattr(_native, name), int(numbers[name]), name)
        self.assertEqual(_native.ATOM_TABLE, _native.ATOM_CELLS * _native.RENUMBERING)
        self.assertEqual(_native.BOND_TABLE, _native.BOND_CELLS * _native.ROW)
        self.assertIn(f'#define BALSA_VERSION "{balsa.__version__}"', header)
        self.assertIn(f"#define BALSA_EDITION {balsa.EDITION}\n", header)
        self.assertIn(f'version = "{balsa.__version__}"', content("python/pyproject.toml").decode())

    def test_words(self):
        listed = [line.split(" ", 1) for line in content("c/refusals.out").decode().splitlines()]
        for number, words in listed:
            self.assertEqual(Refusal(int(number)).message, words)
        self.assertRaises(ValueError, Refusal, 0)
        self.assertRaises(ValueError, Refusal, 300)

    def test_messages(self):
        """As the command line's, but for where the text stands."""
        told = str(refused(Molecule, "C" * 100 + "*(]" + "C" * 100)).split("\n")
        golden = content("rust/cli/tests/refusals.golden").decode().split("\n")
        place = golden.index("<arguments>:5:103: refusal 3: no text of the grammar continues so")
        self.assertEqual(told[0], "refusal 3 at byte 102: no text of the grammar continues so")
        self.assertEqual(told[1:], golden[place + 1 : place + 3])
        self.assertEqual(str(refused(Molecule, "cc")), "refusal 22: a selected atom has fewer than two bonds\n  cc")

    def test_report(self):
        """What objects say of each text is what the proved program reports."""
        lines = b"".join(text + b"\n" for text in TEXTS)
        program = os.path.join(ROOT, "target", "bin", "report")
        proved = subprocess.run([program], input=lines, stdout=subprocess.PIPE, check=True).stdout
        self.assertEqual(balsa.report(lines), proved)
        for line, text in zip(proved.decode().split("\n")[1:], TEXTS):
            self.assertEqual(line.partition(": ")[2], self.said_of(text))

    def test_standardize(self):
        """The one call gives what an object's calls give, and is refused as they are."""
        for text in TEXTS:
            try:
                expected = Molecule(text).kekulized().text
            except Refusal as refusal:
                again = refused(balsa.standardize, text)
                self.assertEqual((again.code, again.place), (refusal.code, refusal.place))
            else:
                self.assertEqual(balsa.standardize(text), expected)
        self.assertRaises(TypeError, balsa.standardize, 5)

    @staticmethod
    def said_of(text):
        try:
            molecule = Molecule(text)
            row = "".join(map(str, next(molecule.matchings())))
            counts = len(molecule.atoms), len(molecule.bonds), molecule.overfull
            return "0 %d %d %d " % counts + f"{row or '-'} {molecule.kekulized().text or '-'}"
        except Refusal as refusal:
            return f"{refusal.code} {refusal.place or 0}"


class Molecules(unittest.TestCase):
    def test_types(self):
        for wrong in [5, None, 1.5, ["C"], object()]:
            self.assertRaises(TypeError, Molecule, wrong)
        for text in ["CC", b"CC", bytearray(b"CC"), memoryview(b"CC")]:
            self.assertEqual(Molecule(text), Molecule("CC"))
        self.assertEqual(refused(Molecule, "C\u00e9").place, 1)
        self.assertEqual(refused(Molecule, "C\ud800").place, 1)

    def test_places(self):
        self.assertEqual(refused(Molecule, "x").place, 0)
        self.assertIsNone(refused(Molecule, "cc").place)

    def test_matchings(self):
        benzene = Molecule("c1ccccc1")
        for wrong in [(), (1,), (1, 1, 1, 0, 0, 0), [1000] * 6, (1, 0, 1, 0, 1, 0, 0), [-1] * 6]:
            self.assertEqual(refused(benzene.kekulized, wrong).code, 12)
        for wrong in ["101010", 6, 1.5]:
            self.assertRaises(TypeError, benzene.kekulized, wrong)
        self.assertEqual(benzene.kekulized([1, 0, 1, 0, 1, 0]), benzene.kekulized())
        self.assertEqual(list(Molecule("C").matchings()), [()])
        self.assertEqual(len(list(Molecule("c1ccc2ccccc2c1").matchings())), 3)

    def test_same_compound(self):
        """Each text of the corpus and its kekulized form, read anew, are the same; neighbours mostly are not."""
        molecules = [molecule for molecule in map(Molecule, CORPUS[:1000]) if len(molecule.atoms) <= _native.SAME_ATOMS]
        for molecule in molecules:
            drawn = Molecule(molecule.kekulized().text)
            found = molecule.same_compound(drawn)
            images = [drawn.atoms[number] for number in found.renumbering]
            self.assertEqual(list(molecule.kekulized(found.row1).atoms), images)
            self.assertEqual(sorted(found.renumbering), list(range(len(drawn.atoms))))
            self.assertEqual(drawn.kekulized(found.row2), drawn)
        alike = [bool(one.same_compound(two)) for one, two in zip(molecules, molecules[1:])]
        self.assertLess(sum(alike), len(alike) / 10)

    def test_same_compound_refused(self):
        large, empty = Molecule("C" * 65), Molecule("")
        self.assertEqual(refused(large.same_compound, empty).code, 19)
        self.assertEqual(refused(empty.same_compound, large).code, 19)
        self.assertEqual(empty.same_compound(empty), ((), (), ()))
        self.assertIsNone(empty.same_compound(Molecule("C")))
        for wrong in ["C", None, 5]:
            self.assertRaises(TypeError, empty.same_compound, wrong)

    def test_marks(self):
        """A text and its mark as stored: the bond numbers put the hydrogen and the bonds in another order."""
        for text, mark in [("[C@](F)(Cl)(Br)I", 1), ("F[C@H]12.Cl1.Br2", 2), ("F[C@H]12.Br2.Cl1", 1)]:
            molecule = Molecule(text)
            self.assertEqual([atom.mark for atom in molecule.atoms if atom.mark], [mark])
            self.assertEqual(Molecule(molecule.text).text, molecule.text)
        self.assertEqual(Molecule("F[C@H]12.Br2.Cl1").text, "F[C@@H](Br)Cl")
        refusal = refused(Molecule, "C[S@](=O)C")
        self.assertEqual((refusal.code, refusal.place), (23, None))

    def test_side_by_side(self):
        """Two enumerations in turn do not disturb each other."""
        one, two = Molecule("c1ccc2ccccc2c1"), Molecule("c1ccccc1")
        rows = list(zip(one.matchings(), two.matchings()))
        self.assertEqual([a for a, _ in rows], list(one.matchings())[:2])
        self.assertEqual([b for _, b in rows], list(two.matchings()))

    def test_pickles_and_copies(self):
        molecule = Molecule("FC(F)(F)(F)F")
        for again in [pickle.loads(pickle.dumps(molecule)), copy.copy(molecule), copy.deepcopy(molecule)]:
            self.assertEqual((again, again.overfull), (molecule, 1))
        refusal = refused(Molecule, "C11")
        again = pickle.loads(pickle.dumps(refusal))
        self.assertEqual((again.code, again.place, again.message), (7, 2, refusal.message))
        self.assertEqual(str(again), str(refusal))
        self.assertIsInstance(again, ValueError)

    def test_sets(self):
        self.assertEqual(len({Molecule("CC"), Molecule("C(C)"), Molecule("CO")}), 2)
        self.assertNotEqual(Molecule("C"), "C")

    def test_unwritable(self):
        spine = "".join(f"C%{10 + n}" for n in range(65)) + "C" + "".join(f".C%{10 + n}" for n in range(65))
        molecule = Molecule(spine)
        self.assertEqual(refused(molecule.written).code, 15)
        self.assertEqual(repr(molecule), "<Molecule of 131 atoms and 130 bonds>")

    def test_threads(self):
        expected = [Molecule(text).kekulized().text for text in CORPUS[:500]]
        seen = []

        def work():
            seen.append([Molecule(text).kekulized().text for text in CORPUS[:500]])

        threads = [threading.Thread(target=work) for _ in range(8)]
        for thread in threads:
            thread.start()
        for thread in threads:
            thread.join()
        self.assertEqual(seen, [expected] * 8)


    def test_keys(self):
        """All drawings have one key; few compounds share one."""
        for text in CORPUS[:1000]:
            molecule = Molecule(text)
            self.assertEqual(molecule.key, Molecule(molecule.kekulized().text).key)
            self.assertTrue(0 <= molecule.key < 2**64)
        self.assertEqual(Molecule("[H]C([H])([H])[H]").key, Molecule("[CH4:1]").key)
        self.assertNotEqual(Molecule("[2H]C").key, Molecule("[H]C").key)
        self.assertGreater(len({Molecule(text).key for text in CORPUS}), 4000)


class Registers(unittest.TestCase):
    def test_entries(self):
        register = Register()
        self.assertEqual((len(register), list(register)), (0, []))
        register.add(7, "CC")
        register.add(65535, b"\x00")
        self.assertEqual(list(register), [(7, b"CC"), (65535, b"\x00")])
        self.assertEqual((register[-1], register[:1]), ((65535, b"\x00"), [(7, b"CC")]))
        self.assertRaises(IndexError, lambda: register[2])
        self.assertRaises(IndexError, lambda: register[-3])
        self.assertEqual(pickle.loads(pickle.dumps(register)), register)
        register.empty()
        self.assertEqual(list(register), [])

    def test_refusals(self):
        register = Register()
        self.assertEqual(refused(register.add, 1, b"C" * (_native.REGISTER_BODY + 1)).code, 18)
        self.assertRaises(ValueError, register.add, 65536, "C")
        self.assertRaises(ValueError, register.add, -1, "C")
        self.assertRaises(TypeError, register.add, "1", "C")
        self.assertRaises(TypeError, register.add, 1, 5)
        self.assertEqual(refused(Register, bytes(_native.REGISTER)).code, 17)
        self.assertEqual(refused(Register, b"").code, 1)
        self.assertRaises(TypeError, Register, 5)

    def test_withdrawn(self):
        register = Register()
        self.assertEqual(register.withdrawn("C"), Withdrawn("clear"))
        register.withdraw(7, "CC1=C(C)C=CC=C1")
        register.withdraw(9, b"CCO")
        for text in ["CC=1C(C)=CC=CC1", b"Cc1ccccc1C", "[H]C([H])([H])c1ccccc1[CH3:4]"]:
            self.assertEqual(register.withdrawn(text), ("withdrawn", 0, 7))
            self.assertTrue(register.withdrawn(text))
        self.assertEqual(register.withdrawn("C(O)C"), ("withdrawn", 1, 9))
        for text in ["Cc1cccc(C)c1", "COC", ""]:
            self.assertEqual(register.withdrawn(text), Withdrawn("clear"))
            self.assertTrue(register.withdrawn(text).is_clear and not register.withdrawn(text))
        register.add(3, "no text")
        self.assertEqual(register.withdrawn("COC"), ("undecided", 2, None))
        self.assertEqual(register.withdrawn("CCO"), ("withdrawn", 1, 9))
        told = [str(register.withdrawn(text)) for text in ["CCO", "COC"]]
        self.assertEqual(told, ["withdrawn, entry 1, tag 9", "undecided, entry 2"])
        again = pickle.loads(pickle.dumps(register.withdrawn("COC")))
        self.assertEqual((again, again.is_clear, bool(again)), (("undecided", 2, None), False, True))

    def test_withdrawals_refused(self):
        register = Register()
        refusal = refused(register.withdraw, 7, "C11")
        self.assertEqual((refusal.code, refusal.place, refusal.text, len(register)), (7, 2, b"C11", 0))
        refusal = refused(register.withdrawn, "cc")
        self.assertEqual((refusal.code, refusal.place), (22, None))
        self.assertEqual(refused(register.withdraw, 7, "-" + "C" * 5000).code, 3)
        self.assertEqual(refused(register.withdraw, 7, "[CH3:1000]" + "[CH2:1000]" * 500).code, 18)
        for wrong in [65536, -1]:
            self.assertRaises(ValueError, register.withdraw, wrong, "C")
        self.assertRaises(TypeError, register.withdraw, "1", "C")
        for wrong in [5, None, Molecule("C")]:
            self.assertRaises(TypeError, register.withdrawn, wrong)
            self.assertRaises(TypeError, register.withdraw, 1, wrong)


if __name__ == "__main__":
    unittest.main()
