#!/usr/bin/env python3
"""Makes libcowriestep.a without optimisation: each operation stands in it as it is written. Rattle's own compiler makes it, at its lowest level, over the crate's proof;
the library of the crate's out/ is put back.

unoptimised.py ARCHIVE
"""
import os
import shutil
import subprocess
import sys
import tempfile

CRATE = os.path.join(os.path.dirname(os.path.abspath(__file__)), "..", "..", "crates", "cowriestep")
MADE = os.path.join(CRATE, "out", "libcowriestep.a")

with tempfile.TemporaryDirectory() as work:
    kept = os.path.join(work, "kept.a")
    if os.path.exists(MADE):
        shutil.move(MADE, kept)
    try:
        done = subprocess.run(["rt", "lib", "--backend", "rattle", "--opt-level", "0"], cwd=CRATE, stdout=subprocess.PIPE, stderr=subprocess.STDOUT, text=True)
        if done.returncode or not os.path.exists(MADE):
            sys.exit(f"{done.stdout[-3000:]}tests/host/unoptimised.py: the library was not made")
        shutil.copyfile(MADE, sys.argv[1])
    finally:
        if os.path.exists(kept):
            shutil.move(kept, MADE)
