"""A Debian package, which dpkg-deb makes from a folder that is laid out here."""

import gzip
import hashlib
import os
import subprocess
import tempfile
import textwrap
from email.utils import formatdate
from pathlib import Path
from typing import Dict, Tuple

from geesefuton.front import COMMANDS, PARTS
from geesefuton.program import CommandError

INSTALLED = Path("usr/lib/python3/dist-packages")
DOCUMENTS = Path("usr/share/doc/geesefuton")
MAINTAINER = "The Geesefuton maintainers <maintainers@geesefuton.invalid>"
RUN = (".py", ".game", ".script", ".account", ".json")  # examples that the package itself uses
OVERRIDES = Path("usr/share/lintian/overrides/geesefuton")
OVERRIDE = """# The program is the one that was proved, byte by byte, so nothing is taken out of it.
geesefuton: unstripped-binary-or-object *
"""
# Python may have written its own files there as root.
REMOVE = """#!/bin/sh
set -e
find /usr/lib/python3/dist-packages/geesefuton -name __pycache__ -prune -exec rm -rf {} +
"""
CONTROL = """Package: geesefuton
Version: {version}
Architecture: amd64
Maintainer: {maintainer}
Installed-Size: {size}
Depends: libc6 (>= 2.34), python3 (>= 3.9)
Section: education
Priority: optional
Description: proved game server of the travel-shopping game TAC Classic
 Eight agents, which are programs in any language, buy trips for their clients
 in 28 simultaneous auctions. The server, tac, is proved: its log holds legal
 histories, and each score is the greatest over all feasible allocations.
 .
 The package includes a lobby for a class, tournaments, reports and example
 agents.
"""
COPYRIGHT = """Format: https://www.debian.org/doc/packaging-manuals/copyright-format/1.0/
Upstream-Name: geesefuton

Files: *
Copyright: {year} The Geesefuton maintainers
License: Expat

License: Expat
{text}
"""


class DebianError(CommandError):
    """dpkg-deb is missing, or failed."""


def _packed(text: bytes) -> bytes:
    return gzip.compress(text, 9, mtime=0)


def _changelog(version: str, epoch: int, text: str) -> bytes:
    """The changelog of a native package: its last entry is this version's."""
    part = text.split(f"## {version}\n", 1)[-1].split("\n## ", 1)[0]
    points = [" ".join(point.split()) for point in part.strip().split("- ") if point.strip()]
    items = "\n".join(textwrap.fill(point, 76, initial_indent="  * ", subsequent_indent="    ")
                      for point in points)
    return (f"geesefuton ({version}) stable; urgency=low\n\n{items}\n\n -- {MAINTAINER}  "
            f"{formatdate(epoch)}\n").encode()


def _licence(text: str) -> str:
    body = text.split("\n", 2)[2] if text.startswith("MIT") else text
    return "\n".join(" " + (line or ".") for line in body.strip().split("\n"))


def man_page(text: str) -> str:
    """The man page, whose text has a line PARTS where an entry for each part is to stand."""
    entries = "".join(f".TP\n.B geesefuton {name} \\fI{part.words}\n".replace("-", "\\-")
                      + f"{part.does[0].upper()}{part.does[1:]}.\n" for name, part in PARTS.items())
    return text.replace("PARTS\n", entries)


def completion(text: str) -> str:
    """The completion, whose text has the words PARTS and COMMANDS where the names are to stand."""
    return text.replace("PARTS", " ".join(PARTS)).replace("COMMANDS", " ".join(COMMANDS))


def lay_out(place: Path, version: str, epoch: int, files: Dict[str, Tuple[bytes, bool]],
            documents: Dict[str, bytes], top: Path) -> None:
    """Writes the files of the package below a folder."""
    packaging = top / "packaging"

    def put(path: Path, data: bytes, can_run: bool = False) -> None:
        file = place / path
        file.parent.mkdir(parents=True, exist_ok=True)
        file.write_bytes(data)
        file.chmod(0o755 if can_run else 0o644)

    for name, (data, can_run) in files.items():
        if name.startswith("geesefuton/examples/") and not name.endswith(RUN) \
                and not name.startswith("geesefuton/examples/starters/"):
            put(DOCUMENTS / name.removeprefix("geesefuton/"), data)
        else:
            put(INSTALLED / name, data, can_run)
    put(Path("usr/bin/geesefuton"), (packaging / "geesefuton").read_bytes(), True)
    put(Path("usr/share/man/man1/geesefuton.1.gz"),
        _packed(man_page((packaging / "geesefuton.1").read_text()).encode()))
    put(Path("usr/share/bash-completion/completions/geesefuton"),
        completion((packaging / "completion.bash").read_text()).encode())
    for name, data in documents.items():
        put(DOCUMENTS / name, data)
    licence = _licence((top / "LICENSE").read_text())
    put(OVERRIDES, OVERRIDE.encode())
    year = formatdate(epoch).split()[3]
    put(DOCUMENTS / "copyright", COPYRIGHT.format(year=year, text=licence).encode())
    put(DOCUMENTS / "changelog.gz",
        _packed(_changelog(version, epoch, (top / "CHANGELOG.md").read_text())))


def write(file: Path, version: str, epoch: int, files: Dict[str, Tuple[bytes, bool]],
          documents: Dict[str, bytes], top: Path) -> None:
    """Writes the package.

    Args:
        file: Where it goes.
        version: Its version.
        epoch: The time that its files have, in seconds since 1970.
        files: The files of the Python package by their paths.
        documents: The files for /usr/share/doc/geesefuton by their paths.
        top: The clone.

    Raises:
        DebianError: dpkg-deb is missing, or failed.
    """
    with tempfile.TemporaryDirectory() as folder:
        place = Path(folder) / "geesefuton"
        lay_out(place, version, epoch, files, documents, top)
        installed = [each for each in sorted(place.rglob("*")) if each.is_file()]
        size = sum(-(-each.stat().st_size // 1024) for each in installed)
        sums = "".join(f"{hashlib.md5(each.read_bytes()).hexdigest()}  "
                       f"{each.relative_to(place)}\n" for each in installed)
        control = place / "DEBIAN"
        control.mkdir()
        (control / "control").write_text(CONTROL.format(version=version, size=size,
                                                        maintainer=MAINTAINER))
        (control / "md5sums").write_text(sums)
        (control / "prerm").write_text(REMOVE)
        (control / "prerm").chmod(0o755)
        for each in [place, *place.rglob("*")]:
            if each.is_dir():
                each.chmod(0o755)
            os.utime(each, (epoch, epoch))
        try:
            subprocess.run(["dpkg-deb", "--root-owner-group", "-Zxz", "--build", str(place),
                            str(file)], check=True, stdout=subprocess.DEVNULL,
                           env={**os.environ, "SOURCE_DATE_EPOCH": str(epoch)})
        except FileNotFoundError:
            raise DebianError("dpkg-deb is missing: install Debian's package dpkg, or use "
                              "--no-deb") from None
        except subprocess.CalledProcessError as fault:
            raise DebianError(f"dpkg-deb ended with exit status {fault.returncode}") from None
