"""Counts the instructions that x86-64 programs execute, the pages of memory they touch, and their system calls.

The count is exact and repeatable, whatever else the machine does, and the same on every machine: QEMU's user emulation
runs the program and a plugin (count.c) counts. On an x86-64 machine without QEMU, callgrind counts, instructions alone.
"""

import os
import platform
import shutil
import subprocess
import tempfile
from typing import NamedTuple, Optional

HERE = os.path.dirname(os.path.abspath(__file__))
OUT = os.path.join(HERE, "out")
MACHINE = platform.machine()
PAGE = 4096


class Run(NamedTuple):
    instructions: int
    pages: Optional[int]
    calls: Optional[int]        # system calls
    said: str           # the last line written, or how many bytes were
    status: int


class Home(NamedTuple):
    """Where a program's loader and libraries are, and the variables it needs."""
    loader: str
    libraries: str
    root: str = ""
    variables: dict = {}


def kit():
    """The folder of the toolchain that our programs are run with, or nothing."""
    home = os.environ.get("RATTLE_HOME")
    if not home:
        rt = shutil.which("rt")
        home = rt and os.path.dirname(os.path.dirname(os.path.realpath(rt)))
    folder = home and os.path.join(home, "toolchain")
    return folder if folder and os.path.isdir(folder) else None


def kit_home():
    folder = kit()
    if not folder:
        return None
    libraries = os.path.join(folder, "lib")
    return Home(os.path.join(libraries, "ld-linux-x86-64.so.2"), libraries)


def debian_home():
    """What bench/toolkits unpacked, or nothing."""
    root = os.path.join(OUT, "debian", "root")
    if not os.path.isdir(root):
        return None
    lib, usr = os.path.join(root, "lib/x86_64-linux-gnu"), os.path.join(root, "usr/lib/x86_64-linux-gnu")
    variables = {"PYTHONHOME": "usr", "PYTHONPATH": "usr/lib/python3/dist-packages",
                 "BABEL_LIBDIR": "usr/lib/x86_64-linux-gnu/openbabel/3.1.1",
                 "BABEL_DATADIR": "usr/share/openbabel/3.1.1"}
    variables = {name: os.path.join(root, path) for name, path in variables.items()}
    variables["PYTHONHASHSEED"] = "0"
    return Home(os.path.join(lib, "ld-linux-x86-64.so.2"), ":".join([lib, usr, usr + "/blas", usr + "/lapack"]), root,
                variables)


class Counter:
    def __init__(self):
        os.makedirs(OUT, exist_ok=True)
        self.plugin = None
        if os.environ.get("COUNT_BY") != "callgrind" and shutil.which("qemu-x86_64"):
            self.plugin = self.build_plugin()
        if not self.plugin and not (MACHINE == "x86_64" and shutil.which("valgrind")):
            raise SystemExit("bench: needs Debian's qemu-user and gcc (or, on x86-64, valgrind)")
        self.by = ("QEMU with a counting plugin" if self.plugin else "callgrind") + " on " + MACHINE

    def build_plugin(self):
        """The plugin in the first version of the interface that this QEMU takes."""
        path, home = os.path.join(OUT, "count.so"), kit_home() or debian_home()
        for version in range(1, 9):
            subprocess.run(["gcc", "-O2", "-shared", "-fPIC", "-DAPI=%d" % version, "-o", path,
                            os.path.join(HERE, "count.c")], check=True)
            if home is None or self.emulate(path, home, [home.loader, "--version"], None).instructions:
                return path
        return None

    def emulate(self, plugin, home, words, given):
        command = [shutil.which("qemu-x86_64"), "-cpu", "qemu64", "-plugin", plugin + ",pages=on", "-d", "plugin"]
        return self.watch(command + (["-L", home.root] if home and home.root else []), "-D", home, words, given)

    def count(self, home, words, given=None):
        """Runs the program (a path and its words) on a file as standard input; `home` may be None on x86-64."""
        if home:
            words = [home.loader, "--library-path", home.libraries] + words
        if self.plugin:
            return self.emulate(self.plugin, home, words, given)
        return self.watch([shutil.which("valgrind"), "--tool=callgrind", "--callgrind-out-file=/dev/null"], "--log-file=",
                          home, words, given)

    @staticmethod
    def watch(command, log_option, home, words, given):
        """Runs words under the command, with no variables but the home's, and reads its log."""
        with tempfile.TemporaryDirectory(dir=OUT) as folder:
            log, out = os.path.join(folder, "log"), os.path.join(folder, "out")
            option = [log_option + log] if log_option.endswith("=") else [log_option, log]
            with open(given or os.devnull, "rb") as stdin, open(out, "wb") as stdout:
                status = subprocess.run(command + option + words, stdin=stdin, stdout=stdout, stderr=subprocess.STDOUT,
                                        env=home.variables if home else {}).returncode
            counts = {"instructions": 0}
            if os.path.exists(log):
                with open(log, errors="replace") as lines:
                    for line in lines:
                        name, _, number = line.replace("Collected", "instructions").rpartition(":")
                        if number.strip().isdigit():
                            counts[name.split()[-1]] = int(number)
            return Run(counts["instructions"], counts.get("pages"), counts.get("calls"), said(out), status)


def said(path):
    size = os.path.getsize(path)
    if size > 4096:
        return "%d bytes" % size
    with open(path, errors="replace") as text:
        return (text.read().strip().splitlines() or [""])[-1]
