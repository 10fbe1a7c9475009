"""What RDKit and Open Babel answer on the pairs of `bench-hard texts`, and how long they take.

    bench-hard texts | python3 peers.py [SECONDS]

Two texts are told the same where a library's canonical texts of both are equal. Each pair is asked in a process of
its own, which is ended after SECONDS (2) of processor time. Where RDKit does not take a text as it is, it is told not
to look at valences. A family's line has its pairs, then for each library the slowest pair in milliseconds, how many
were ended, and how many were answered wrongly or refused.
"""

import itertools
import os
import resource
import sys
import time

from openbabel import openbabel, pybel
from rdkit import Chem, RDLogger

RDLogger.DisableLog("rdApp.*")
openbabel.obErrorLog.SetOutputLevel(-1)

RIGHT, WRONG, REFUSED = range(3)


def read_rdkit(text):
    """A molecule of RDKit, with valences and aromatic bonds looked at where that is not refused."""
    return Chem.MolFromSmiles(text) or Chem.MolFromSmiles(text, sanitize=False)


def ask_rdkit(one, other):
    return Chem.MolToSmiles(read_rdkit(one)) == Chem.MolToSmiles(read_rdkit(other))


def ask_babel(one, other):
    return pybel.readstring("smi", one).write("can") == pybel.readstring("smi", other).write("can")


LIBRARIES = {"RDKit": ask_rdkit, "Open Babel": ask_babel}


def asked(ask, one, other, is_same, seconds):
    """The milliseconds of processor time and the outcome; None for a pair that was ended."""
    reader, writer = os.pipe()
    child = os.fork()
    if child == 0:
        resource.setrlimit(resource.RLIMIT_CPU, (seconds, seconds))
        start = time.process_time()
        try:
            outcome = RIGHT if ask(one, other) == is_same else WRONG
        except Exception:  # the library does not take the text
            outcome = REFUSED
        took = (time.process_time() - start) * 1e3
        os.write(writer, f"{took} {outcome}".encode())
        os._exit(0)
    os.close(writer)
    with os.fdopen(reader) as pipe:
        told = pipe.read().split()
    os.waitpid(child, 0)
    return (float(told[0]), int(told[1])) if told else None


def row(ask, pairs, seconds):
    """The slowest pair, how many were ended, wrong and refused."""
    answers = [asked(ask, one, other, is_same == "same", seconds) for _, is_same, one, other in pairs]
    told = [answer for answer in answers if answer]
    slowest = max((took for took, _ in told), default=0)
    counts = [len(answers) - len(told)] + [sum(o == outcome for _, o in told) for outcome in (WRONG, REFUSED)]
    return f"{slowest:10.2f}" + "".join(f"{count:6}" for count in counts)


def main():
    seconds = int(sys.argv[1]) if len(sys.argv) > 1 else 2
    lines = [line.rstrip("\n").split("\t") for line in sys.stdin]
    print(f"CPU milliseconds of the slowest pair, how many were ended after {seconds} s, wrong, refused")
    print(f"{'':<48}{'pairs':>6}" + "".join(f"{name:>28}" for name in LIBRARIES))
    for name, pairs in itertools.groupby(lines, key=lambda line: line[0]):
        pairs = list(pairs)
        cells = "".join(row(ask, pairs, seconds) for ask in LIBRARIES.values())
        print(f"{name:<48}{len(pairs):>6}{cells}", flush=True)


main()
