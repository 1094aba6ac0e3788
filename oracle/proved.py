"""The proved library, run on files of cases through a small C program, oracle/library.c."""

import os
import subprocess
import tempfile

from cases import answers

ROOT = os.path.dirname(os.path.dirname(os.path.abspath(__file__)))
COMPILE = os.path.join(ROOT, "examples", "compile")
LIBRARY = os.path.join(ROOT, "target", "staticlib", "libcapellanote.a")
BATCH_BYTES = 2_000_000     # the C program takes twice as much


def library_program(folder):
    """The command that answers a file of cases by the static library; builds what is not there yet."""
    if not os.path.exists(LIBRARY):
        print("building the static library, which proves it first", flush=True)
        subprocess.run([os.path.join(ROOT, "library", "build"), "--static"], check=True, stdout=subprocess.DEVNULL)
    program = os.path.join(folder, "library")
    subprocess.run([COMPILE, os.path.join(ROOT, "oracle", "library.c"), program], check=True)
    return [COMPILE, "--run", program]


def batches(cases, key=lambda case: case):
    """Lists of cases whose bytes fit one run; the key gives a case's bytes."""
    batch, size = [], 0
    for case in cases:
        length = len(key(case))
        if batch and size + length > BATCH_BYTES:
            yield batch
            batch, size = [], 0
        batch.append(case)
        size += length
    if batch:
        yield batch


def answers_by(program, cases):
    """The lines that a program prints for a list of cases."""
    with tempfile.NamedTemporaryFile() as file:
        file.write(b"".join(cases))
        file.flush()
        return subprocess.run(program + [file.name], stdout=subprocess.PIPE).stdout.decode().splitlines()


def first_difference(program, batch):
    """The second program's lines, and the place of the first that the program prints otherwise, or None."""
    expected, got = answers(b"".join(batch)).splitlines(), answers_by(program, batch)
    if got == expected:
        return expected, None
    unlike = [k for k, (a, b) in enumerate(zip(got, expected)) if a != b]
    return expected, min(unlike + [len(got), len(batch) - 1])
