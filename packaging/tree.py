"""Files by their paths, as they are packed or installed: those of the repository and what is made for them."""
import fnmatch
import functools
import io
import gzip
import os
import pathlib
import shutil
import subprocess
import sys
import tarfile

import pages
import proving

sys.path.insert(0, str(proving.TOP / "crates" / "conformance"))
from suite import made

TOP = proving.TOP
HEADER = "crates/board_ffi/kalyubos.h"


class Unmade(Exception):
    """Why nothing can be made, in a sentence."""


def git(*words):
    """What git says, without its last line's end."""
    ran = subprocess.run(["git", *words], cwd=TOP, capture_output=True, text=True) if shutil.which("git") else None
    if not ran or ran.returncode:
        raise Unmade("a release wants git and the repository's checkout")
    return ran.stdout.rstrip("\n")


@functools.cache
def files():
    """The repository's files: what git has, or without git all that is neither built nor made of tables."""
    ran = subprocess.run(["git", "ls-files", "-z"], cwd=TOP, capture_output=True, text=True) if shutil.which("git") else None
    if ran and ran.returncode == 0:
        return [name for name in ran.stdout.split("\0") if (TOP / name).is_file()]
    found, of_tables = [], {os.path.normpath(path) for path in made.files()}
    for folder, below, names in os.walk(TOP):
        below[:] = [name for name in below if name not in ("out", "target", ".git")]
        found += [os.path.relpath(path, TOP) for name in names if (path := os.path.join(folder, name)) not in of_tables]
    return found


def of_repository(patterns):
    """The repository's files that the patterns name; a later pattern with a ! takes some away."""
    found = set()
    for pattern in patterns:
        named = fnmatch.filter(files(), pattern.lstrip("!"))
        found = found.difference(named) if pattern.startswith("!") else found.union(named)
    return sorted(found)


class Tree:
    """Files by their paths: bytes and a mode, or what a symbolic link leads to."""

    # How hard they are packed.
    LEVEL = 6

    def __init__(self):
        self.files = {}

    def put(self, path, data, is_program=False):
        data = data.encode() if isinstance(data, str) else data
        self.files[path] = (data, 0o755 if is_program else 0o644)

    def put_packed(self, path, data):
        """Puts a file as gzip packs it, which a system reads unpacked."""
        self.put(f"{path}.gz", packed(data.encode() if isinstance(data, str) else data, 9))

    def link(self, path, target):
        self.files[path] = (target, None)

    def take(self, root, patterns, header=None):
        """Puts files of the repository below a root, and pages with links that lead to what is there. `header` is the header's own place."""
        names = of_repository(patterns)
        places = {**{name: os.path.join(root, name) for name in names}, **({HEADER: header} if header else {})}
        for name in names:
            path, text = TOP / name, None
            if name.endswith(".md"):
                text = pages.installed(path.read_text(encoding="utf-8"), name, places)
            self.put(places[name], text or path.read_bytes(), os.access(path, os.X_OK))

    def put_header(self, path, docs):
        """Puts the header, which names its pages by where they are installed."""
        self.put(path, (TOP / HEADER).read_text(encoding="utf-8").replace("docs/", docs))

    def folders(self):
        """The folders of all files, each behind those that it lies in."""
        found = {parent for path in self.files for parent in map(str, pathlib.PurePosixPath(path).parents)}
        return sorted(found - {"."})

    def faults(self):
        """What is wrong with the links of its pages."""
        texts = {path: data.decode() if path.endswith(".md") else None for path, (data, mode) in self.files.items() if mode}
        return [f"{path}: {target}: {fault}" for path, text in texts.items() if text is not None
                for target in pages.links_of(text) if (fault := pages.broken(texts, path, target))]

    def write(self, folder, when=None):
        """Writes it below a folder, with fixed modes and with this time for all, or that of now."""
        for path in self.folders():
            (folder / path).mkdir(parents=True, exist_ok=True)
            (folder / path).chmod(0o755)
        for path, (data, mode) in sorted(self.files.items()):
            if mode is None:
                (folder / path).symlink_to(data)
            else:
                (folder / path).write_bytes(data)
                (folder / path).chmod(mode)
        for path in [*self.files, *reversed(self.folders())] if when else ():
            os.utime(folder / path, (when, when), follow_symlinks=False)

    def archive(self, root, when):
        """Its bytes as a compressed archive with one folder at the top: names in order, the owner root, this time for all."""
        said = io.BytesIO()
        with tarfile.open(fileobj=said, mode="w", format=tarfile.GNU_FORMAT) as tar:
            for path in sorted(["", *self.folders(), *self.files]):
                data, mode = self.files.get(path, (b"", 0o755))
                info = tarfile.TarInfo(os.path.join(root, path).rstrip("/"))
                info.mtime, info.mode, info.uname, info.gname = when, mode or 0o777, "root", "root"
                if path not in self.files:
                    info.type = tarfile.DIRTYPE
                elif mode is None:
                    info.type, info.linkname = tarfile.SYMTYPE, data
                else:
                    info.size = len(data)
                tar.addfile(info, io.BytesIO(data) if info.isreg() else None)
        return packed(said.getvalue(), Tree.LEVEL)


def packed(data, level):
    """The bytes as gzip packs them, without a name and a time."""
    said = io.BytesIO()
    with gzip.GzipFile(filename="", mode="wb", compresslevel=level, fileobj=said, mtime=0) as file:
        file.write(data)
    return said.getvalue()
