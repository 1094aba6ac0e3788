"""Molfiles and SDfiles that others wrote, out of Debian packages: source tarballs and binary packages of one release."""

import gzip
import hashlib
import io
import lzma
import os
import re
import tarfile
import urllib.error
import urllib.request

MIRROR = "http://deb.debian.org/debian/"
SUITE = "bookworm"
SOURCES = ["openbabel", "rdkit", "indigo", "chemtool", "ch5m3d", "cdk", "jmol"]
BINARIES = ["pymol-data", "r-cran-rcdk", "r-bioc-rcpi", "r-bioc-chemminer", "pymatgen-test-files"]
KINDS = {"mol": 0, "mdl": 0, "sd": 1, "sdf": 1}


def fetched(folder, path):
    """A file of the mirror, kept in the folder; None where the mirror does not have it."""
    name = os.path.join(folder, path.replace("/", "_"))
    if not os.path.exists(name):
        try:
            with urllib.request.urlopen(MIRROR + path) as answer, open(name + ".part", "wb") as file:
                file.write(answer.read())
        except urllib.error.HTTPError:
            return None
        os.rename(name + ".part", name)
    return name


def index(folder, path):
    """The paragraphs of an index by package name; where a name comes twice, the last."""
    with lzma.open(fetched(folder, "dists/%s/main/%s" % (SUITE, path)), "rt") as file:
        return {p[9:p.index("\n")]: p for p in file.read().split("\n\n") if p.startswith("Package: ")}


def archives(folder):
    """Package name and archive, one after another; archive None where the mirror does not have it."""
    sources, binaries = index(folder, "source/Sources.xz"), index(folder, "binary-amd64/Packages.xz")
    for name in SOURCES:
        where = re.search(r"^Directory: (\S+)", sources[name], re.M).group(1)
        tarball = re.search(r"\S+\.orig\.tar\.\w+$", sources[name], re.M).group(0)
        yield "%s (source)" % name, fetched(folder, where + "/" + tarball)
    for name in BINARIES:
        yield name, fetched(folder, re.search(r"^Filename: (\S+)", binaries[name], re.M).group(1))


def opened(archive):
    """The tar archive of a source tarball, or of a binary package's data part."""
    if not archive.endswith(".deb"):
        return tarfile.open(archive)
    with open(archive, "rb") as file:
        file.read(8)
        while True:
            head = file.read(60)
            size = int(head[48:58])
            if head.startswith(b"data.tar"):
                return tarfile.open(fileobj=io.BytesIO(file.read(size)))
            file.seek(size + size % 2, 1)


def files(archive, seen):
    """Name, kind and bytes of each molfile and SDfile that was not seen before."""
    tar = opened(archive)
    for member in tar:
        found = re.search(r"\.(mol|mdl|sdf?)(\.gz)?$", member.name, re.I)
        if not member.isfile() or not found:
            continue
        data = tar.extractfile(member).read()
        if found.group(2):
            data = gzip.decompress(data)
        mark = hashlib.sha256(data).digest()
        if mark not in seen:
            seen.add(mark)
            yield member.name, KINDS[found.group(1).lower()], data
