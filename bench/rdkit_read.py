"""Reads an SDfile with RDKit and prints how many records gave a molecule and how many did not. No file: nothing is read.

Molecules are built but not sanitised: that is the least RDKit does to read a record.
"""

import sys

from rdkit import Chem

read = bad = 0
for path in sys.argv[1:]:
    for molecule in Chem.SDMolSupplier(path, sanitize=False, removeHs=False):
        read += molecule is not None
        bad += molecule is None
print(read, bad)
