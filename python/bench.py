"""Processor time per text over a file, the quickest of 20 rounds: reading, kekulizing by the first matching, writing, all three.

    BALSA_LIBRARY=target/shared/lib/libbalsa.so PYTHONPATH=python python3 python/bench.py corpus/real.smi
"""

import sys
import time

from balsa import Molecule

ROUNDS = 20


def quickest(texts, work):
    """Microseconds per text."""
    rounds = []
    for _ in range(ROUNDS):
        begin = time.process_time()
        for text in texts:
            work(text)
        rounds.append(time.process_time() - begin)
    return min(rounds) / len(texts) * 1e6


with open(sys.argv[1], encoding="ascii") as file:
    texts = file.read().split()
molecules = [Molecule(text) for text in texts]
kekulized = [molecule.kekulized() for molecule in molecules]
print(f"read      {quickest(texts, Molecule):6.2f}")
print(f"kekulized {quickest(molecules, Molecule.kekulized):6.2f}")
print(f"text      {quickest(kekulized, lambda molecule: molecule.text):6.2f}")
print(f"all three {quickest(texts, lambda text: Molecule(text).kekulized().text):6.2f}")
