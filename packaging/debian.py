"""Debian's packages: what their control files say, their changelog, and how dpkg-deb makes them."""
import dataclasses
import datetime
import email.utils
import hashlib
import os
import pathlib
import re
import shutil
import subprocess
import tempfile
import textwrap

from symbols import exported
from tree import TOP, Tree, Unmade

LIBRARIES = "usr/lib/x86_64-linux-gnu"
# What lintian says of packages and why it stands, in blocks: reasons, and behind them the lines of packages.
OVERRIDES = TOP / "packaging" / "overrides"
# What lintian says of packages of symbols, which can have no overrides: the kit's compiler makes no line numbers, so the files have names alone.
NAMES_ALONE = "debug-file-with-no-debug-symbols"
# The longest line of a changelog.
WIDTH = 79


@dataclasses.dataclass
class Package:
    """A package in the making: its files, and what its control file says of it."""

    name: str
    tree: Tree
    section: str
    depends: list
    what: str
    more: str = ""

    @property
    def is_symbols(self):
        return self.name.endswith("-dbgsym")


def name_of(soname):
    """The package of a shared library: libkalyubos.so.0.3 is in libkalyubos0.3."""
    return soname.replace(".so.", "")


def symbols_of(package, built, version):
    """The package with the symbols of what a package has, each file where debuggers look for its build's number."""
    tree = Tree()
    for one in built:
        tree.put(f"usr/lib/debug/.build-id/{one.number[:2]}/{one.number[2:]}.debug", one.symbols)
    numbers = " ".join(sorted(one.number for one in built))
    more = f"{package.more}Auto-Built-Package: debug-symbols\nBuild-Ids: {numbers}\n"
    return Package(f"{package.name}-dbgsym", tree, "debug", [f"{package.name} (= {version})"], f"symbols of {package.name}", more)


def needed_of(data):
    """The packages that a built file needs: the C library of the newest version that it names, where it is linked to one."""
    found = [tuple(map(int, it.split(b"."))) for it in re.findall(rb"\0GLIBC_(\d+(?:\.\d+)+)\0", data)]
    return [f"libc6 (>= {'.'.join(map(str, max(found)))})"] if found else []


def control(release, package, size):
    """The control file of a package."""
    return (f"Package: {package.name}\nSource: kalyubos\nVersion: {release.version}\nArchitecture: amd64\n{package.more}Section: {package.section}\n"
            f"Priority: optional\nMaintainer: {release.maintainer}\nInstalled-Size: {size}\n"
            + (f"Depends: {', '.join(package.depends)}\n" if package.depends else "")
            + f"Description: virtio-mmio devices for up to 64 guests: {package.what}\n"
            " Kalyubos is block devices and consoles behind virtio-mmio registers, for hosts\n in C and Rust. What each guest sees is decided by its own"
            " calls alone; that is\n proved. The file PROVED beside the notices names the commit.\n")


def changes(version):
    """The part of CHANGELOG.md about this version, or about what isn't released yet, as a list of paragraphs and items."""
    text = (TOP / "CHANGELOG.md").read_text(encoding="utf-8")
    part = re.search(rf"^## (?:Unreleased|{re.escape(version)}\b.*)\n(.*?)(?=^## |\Z)", text, re.MULTILINE | re.DOTALL)
    if not part:
        raise Unmade(f"CHANGELOG.md says nothing of {version}")
    plain = re.sub(r"\[([^\]]*)\]\([^)]*\)|`", lambda found: found[1] or "", part[1])
    return [" ".join(it.split()) for it in re.split(r"\n\s*\n|\n(?=- )", plain) if it.strip() and not it.lstrip().startswith("#")]


def changelog(release):
    """Debian's changelog: an entry for this version."""
    lines = [f"kalyubos ({release.version}) unstable; urgency=medium", ""]
    for it in changes(release.version):
        mark, more = ("    - ", " " * 6) if it.startswith("- ") else ("  * ", " " * 4)
        lines += textwrap.wrap(it.removeprefix("- "), WIDTH, initial_indent=mark, subsequent_indent=more, break_long_words=False, break_on_hyphens=False)
    when = datetime.datetime.fromtimestamp(release.when, datetime.timezone.utc)
    return "\n".join([*lines, "", f" -- {release.maintainer}  {email.utils.format_datetime(when)}", ""])


def overrides(release, package):
    """What lintian is told of a package: its lines of the overrides, with their reasons."""
    told = ""
    for block in release.filled(OVERRIDES.read_text(encoding="utf-8")).split("\n\n"):
        lines = [line for line in block.splitlines() if line.startswith(("#", f"{package.name}: "))]
        told += "\n".join(lines) + "\n" if lines and not lines[-1].startswith("#") else ""
    return told


def put_notes(release, package):
    """Puts what each package says of itself: its changelog, its notices and what was proved. One of symbols has those of its package."""
    place = f"usr/share/doc/{package.name}"
    if package.is_symbols:
        package.tree.link(place, package.name.removesuffix("-dbgsym"))
        return
    package.tree.put(f"{place}/copyright", (TOP / "NOTICE").read_bytes())
    package.tree.put(f"{place}/PROVED", release.proved)
    package.tree.put_packed(f"{place}/changelog", changelog(release))
    package.tree.put(f"usr/share/lintian/overrides/{package.name}", overrides(release, package))


def make(release, package, out):
    """Makes one package, and answers its path."""
    tree = package.tree
    put_notes(release, package)
    sums = "".join(f"{hashlib.md5(data).hexdigest()}  {path}\n" for path, (data, mode) in sorted(tree.files.items()) if mode)
    size = sum(len(data) // 1024 + 1 for data, _ in tree.files.values())
    tree.put("DEBIAN/control", control(release, package, size))
    tree.put("DEBIAN/md5sums", sums)
    if package.name == name_of(release.soname):
        number = release.soname.removeprefix("libkalyubos.so.")
        tree.put("DEBIAN/shlibs", f"libkalyubos {number} {package.name} (>= {release.version})\n")
        names = exported(release.bare["libkalyubos.so"].data)
        tree.put("DEBIAN/symbols", f"{release.soname} {package.name} #MINVER#\n* Build-Depends-Package: libkalyubos-dev\n" + "".join(f" {it}@Base {release.version}\n" for it in names))
        tree.put("DEBIAN/triggers", "activate-noawait ldconfig\n")
    path = out / f"{package.name}_{release.version}_amd64.deb"
    with tempfile.TemporaryDirectory() as folder:
        os.chmod(folder, 0o755)
        tree.write(pathlib.Path(folder), release.when)
        subprocess.run(["dpkg-deb", "--root-owner-group", "-Zgzip", f"-z{Tree.LEVEL}", "--build", folder, str(path)], check=True, stdout=subprocess.DEVNULL,
                       env={**os.environ, "SOURCE_DATE_EPOCH": str(release.when), "TZ": "UTC"})
    return path


def can_judge():
    """Whether lintian is there."""
    return bool(shutil.which("lintian"))


def judged(paths):
    """What lintian says against the packages, a line each, errors and warnings."""
    ran = subprocess.run(["lintian", "--no-cfg", "--allow-root", "--suppress-tags", NAMES_ALONE, *map(str, paths)], capture_output=True, text=True)
    return ran.stdout.splitlines() + (ran.stderr.splitlines() if ran.returncode else [])
