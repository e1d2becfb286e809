#!/usr/bin/env python3
"""Makes a release of a clone: an archive, a wheel and a Debian package, with the program in each.

    (git rev-parse HEAD; time rt ci) > ../gate.log 2>&1      # in bash
    packaging/release.py --gate ../gate.log      # into release/VERSION
    packaging/release.py --check release/1.1.0   # builds again, and compares

PROVENANCE has the last line of the gate, its minutes, and how much of its work was new. Both
commands first prove and build the program, by `(cd crates/tacd && rt run -- make 42)`: this takes
seconds if nothing has changed since, and a quarter of an hour or more in a fresh clone. Two clones
of a commit give the same bytes, if they get the same gate log. The command needs the toolchain,
Python 3.11, git and dpkg-deb, and fetches nothing.
"""

import argparse
import contextlib
import gzip
import hashlib
import io
import json
import os
import re
import shutil
import subprocess
import sys
import tarfile
import tempfile
from pathlib import Path
from typing import Dict, Iterator, List, NamedTuple, Optional, Sequence

if sys.version_info < (3, 11):
    sys.exit("release: needs Python 3.11 or later")
TOP = Path(__file__).resolve().parent.parent
sys.path.insert(0, str(TOP / "python"))
sys.path.insert(0, str(TOP / "packaging"))

import debian  # noqa: E402
import gate_log  # noqa: E402
import wheel_file  # noqa: E402

from geesefuton import front  # noqa: E402
from geesefuton.arguments import Parser  # noqa: E402
from geesefuton.processes import command, tell  # noqa: E402
from geesefuton.program import CommandError  # noqa: E402

TREE = ("README.md", "LICENSE", "CHANGELOG.md", "CITATION.cff", "geesefuton", "examples", "docs",
        "python/geesefuton", "python/README.md", "python/pyproject.toml", "packaging/Containerfile")
# Only in a clone can one read the definitions by the script of the pages.
NOT_TAKEN = ("docs/reading.py", "docs/definitions.py", "docs/chapters.tsv", "docs/left_out.tsv",
             "docs/rules.tsv")
PACKAGE = Path("python/geesefuton")


class ReleaseError(CommandError):
    """A release that cannot be made, or one that differs."""


class Release(NamedTuple):
    """What a release is made of.

    Attributes:
        version: Its version.
        epoch: The time of its commit, in seconds since 1970, which all files get.
        files: The tracked files of the clone that belong to it, by their paths there.
        program: The bytes of the program.
        provenance: What it says of its origin.
    """

    version: str
    epoch: int
    files: List[str]
    program: bytes
    provenance: Dict[str, str]


def git(*words: str) -> str:
    """What git says in the clone.

    Raises:
        ReleaseError: There is no git, or it fails.
    """
    try:
        done = subprocess.run(["git", "-C", str(TOP), *words], check=False, text=True,
                              stdout=subprocess.PIPE, stderr=subprocess.PIPE)
    except OSError as fault:
        raise ReleaseError(f"git: {fault.strerror}") from None
    if done.returncode:
        raise ReleaseError(f"git {words[0]}: " + done.stderr.strip().split("\n")[0])
    return done.stdout.strip()


def version_of() -> str:
    """The package's version."""
    text = (TOP / PACKAGE / "__init__.py").read_text()
    found = re.search(r'^__version__ = "([0-9.]+)"', text, re.M)
    if not found:
        raise ReleaseError("the package has no version")
    return found[1]


def commit_of(may_change: bool) -> str:
    """The commit at which the clone stands; ` with changes` follows if it has any.

    Args:
        may_change: Whether a clone with changes is no error.

    Raises:
        ReleaseError: The clone has changes, or is none.
    """
    commit, changes = git("rev-parse", "HEAD"), git("status", "--porcelain")
    if not changes:
        return commit
    if may_change:
        return f"{commit} with changes"
    first = changes.split("\n")[0]
    raise ReleaseError(f"the clone has uncommitted changes, such as {first!r}: commit them, or use "
                       "--changed")


def gate_of(given: argparse.Namespace, commit: str) -> Dict[str, str]:
    """What is known of the gate, by the names of `gate_log.FACTS`.

    Raises:
        ReleaseError: There is no log of it, although the clone's own release is asked for.
        GateError: The log is not that of a gate which passed at the commit.
    """
    if given.gate is not None:
        minutes = gate_log.minutes_text(*given.minutes) if given.minutes else None
        return gate_log.read(given.gate, commit.split()[0], minutes)
    if given.changed:
        return gate_log.UNTOLD
    raise ReleaseError(f"give --gate LOG; in bash {gate_log.HOW} makes LOG")


def kit() -> str:
    """What the toolchain, Rattle, says of its version."""
    try:
        said = subprocess.run(["rt", "version"], check=True, text=True,
                              stdout=subprocess.PIPE).stdout
    except (OSError, subprocess.CalledProcessError):
        return "no toolchain"
    return "; ".join(said.splitlines())


def program_of(given: Optional[Path], commit: str) -> bytes:
    """The bytes of the program: of the given file, or as the toolchain builds it now.

    Args:
        given: The file; None for the program of the clone.
        commit: The commit, as `commit_of` gives it.

    Raises:
        ReleaseError: There is no such file, no toolchain, or the clone has changed meanwhile.
        ProgramError: The toolchain builds no program.
    """
    if given is not None:
        try:
            return given.read_bytes()
        except OSError as fault:
            raise ReleaseError(f"{given}: {fault.strerror}") from None
    if shutil.which("rt") is None:
        raise ReleaseError("there is no command rt in PATH: install the toolchain, Rattle, to "
                           "build the program at this commit")
    data = front.build(TOP, "release").read_bytes()
    if commit_of(True) != commit:
        raise ReleaseError(f"the clone was at {commit} before the build, but is no longer: start "
                           "again")
    return data


def gather(program: bytes, commit: str, facts: Dict[str, str]) -> Release:
    """What the release is made of.

    Args:
        program: The program.
        commit: The commit, as `commit_of` gives it.
        facts: What else it says of its origin.
    """
    provenance = {**facts, "commit": commit, "sha256": hashlib.sha256(program).hexdigest()}
    files = [file for file in git("ls-files", *TREE).split("\n")
             if file not in NOT_TAKEN and (TOP / file).is_file()]
    return Release(version_of(), int(git("log", "-1", "--format=%ct")), files, program, provenance)


def provenance_text(release: Release) -> bytes:
    """The file PROVENANCE, a line for each fact."""
    lines = [f"geesefuton {release.version}"]
    lines += [f"{key}: {value}" for key, value in sorted(release.provenance.items())]
    return ("\n".join(lines) + "\n").encode()


def contents(release: Release) -> Iterator["tuple[str, bytes, bool]"]:
    """Each file of the tree by its path: its bytes, and whether it can be executed."""
    for file in release.files:
        yield file, (TOP / file).read_bytes(), os.access(TOP / file, os.X_OK)
    yield str(PACKAGE / "bin" / "tac"), release.program, True
    yield (str(PACKAGE / "provenance.json"),
           json.dumps(release.provenance, indent=1, sort_keys=True).encode() + b"\n", False)
    yield "PROVENANCE", provenance_text(release), False


def archive(release: Release, file: Path) -> None:
    """Writes the archive, with sorted names, one time and no owners."""
    root, text = f"geesefuton-{release.version}", io.BytesIO()
    with tarfile.open(fileobj=text, mode="w", format=tarfile.GNU_FORMAT) as tar:
        for name, data, can_run in sorted(contents(release)):
            entry = tarfile.TarInfo(f"{root}/{name}")
            entry.size, entry.mtime = len(data), release.epoch
            entry.mode = 0o755 if can_run else 0o644
            tar.addfile(entry, io.BytesIO(data))
    with file.open("wb") as out, gzip.GzipFile("", "wb", 9, out, mtime=release.epoch) as packed:
        packed.write(text.getvalue())


def package_files(release: Release) -> Dict[str, "tuple[bytes, bool]"]:
    """The files of the Python package as it is installed, by their paths: with the examples."""
    found: Dict[str, "tuple[bytes, bool]"] = {}
    for name, data, can_run in contents(release):
        if name.startswith("python/geesefuton/"):
            found[name.removeprefix("python/")] = (data, can_run)
        elif name.startswith("examples/"):
            found[f"geesefuton/{name}"] = (data, can_run)
    return found


def make(release: Release, place: Path, with_debian: bool = True) -> List[Path]:
    """Makes all files of a release in a folder, and gives them."""
    made = [place / f"geesefuton-{release.version}-linux-x86_64.tar.gz",
            place / wheel_file.name(release.version)]
    archive(release, made[0])
    project = TOP / "python" / "pyproject.toml"
    wheel_file.write(made[1], release.version, release.epoch, package_files(release), project,
                     (TOP / "README.md").read_text(), (TOP / "LICENSE").read_bytes())
    if with_debian:
        made.append(place / f"geesefuton_{release.version}_amd64.deb")
        documents = {file: (TOP / file).read_bytes() for file in release.files
                     if file.startswith("docs/") or file == "README.md"}
        documents["PROVENANCE"] = provenance_text(release)
        debian.write(made[2], release.version, release.epoch, package_files(release), documents,
                     TOP)
    made.append(place / "PROVENANCE")
    made[-1].write_bytes(provenance_text(release))
    sums = place / "SHA256SUMS"
    sums.write_text("".join(f"{hashlib.sha256(each.read_bytes()).hexdigest()}  {each.name}\n"
                            for each in sorted(made)))
    return [*made, sums]


def told_in(folder: Path) -> Dict[str, str]:
    """The facts in the PROVENANCE of a release.

    Raises:
        ReleaseError: It has none.
    """
    try:
        lines = (folder / "PROVENANCE").read_text(errors="replace").split("\n")
    except OSError as fault:
        raise ReleaseError(f"{folder}: not a release: {fault.strerror}") from None
    return dict(line.split(": ", 1) for line in lines if ": " in line)


def differences(folder: Path, made: Sequence[Path]) -> List[str]:
    """Where a release differs from what was built now: a line for each file."""
    lines = []
    names = {file.name for file in made}
    for extra in sorted({file.name for file in folder.iterdir()} - names):
        lines.append(f"{extra}: is not a file of the release")
    for file in made:
        given = folder / file.name
        if not given.is_file():
            lines.append(f"{file.name}: is missing")
        elif given.read_bytes() != file.read_bytes():
            lines.append(f"{file.name}: differs")
    return lines


def check(folder: Path, given: Optional[Path], commit: str) -> int:
    """Builds a release again and compares; gives the exit status.

    Args:
        folder: The release.
        given: The program's file; None for the program of the clone, which is built.
        commit: The commit, as `commit_of` gives it.

    Raises:
        ReleaseError: It is no release, or one of another commit, or there is no toolchain.
        ProgramError: The toolchain builds no program.
    """
    told = told_in(folder)
    if told.get("commit") != commit:
        raise ReleaseError(f"{folder} is of commit {told.get('commit', 'unknown')}, but this clone "
                           f"is at {commit}")
    # A build cannot know these facts.
    release = gather(program_of(given, commit), commit,
                     {key: told[key] for key in ("kit", "program", *gate_log.FACTS)
                      if key in told})
    with tempfile.TemporaryDirectory() as place:
        has_debian = any(folder.glob("*.deb"))
        lines = differences(folder, make(release, Path(place), has_debian))
    for line in lines:
        tell(f"release: {line}")
    if not lines:
        what = f" with the program {given}, which was not built here" if given else ""
        print(f"{folder}: identical, byte by byte, to this clone's release at {commit}{what}")
    return int(bool(lines))


def _minutes(text: str) -> float:
    """Reads a number of minutes, such as 39.2."""
    if not re.fullmatch(r"\d{1,6}(\.\d+)?", text, re.ASCII):
        raise argparse.ArgumentTypeError(f"expected a number of minutes, not {text!r}")
    return float(text)


def _main() -> int:
    parser = Parser("release", __doc__ or "")
    add = parser.add_argument
    add("--gate", type=Path, metavar="LOG",
        help="read the commit and the output of `time rt ci` for it from this file")
    add("--minutes", type=_minutes, nargs=2, metavar=("WALL", "PROCESSORS"),
        help="give the minutes of the gate, if its log has no times")
    add("--out", type=Path, metavar="FOLDER",
        help="write to this new folder (default: release/VERSION)")
    add("--check", type=Path, metavar="FOLDER", help="build again, and compare with that release")
    add("--program", type=Path, metavar="FILE",
        help="use this program instead of the built one, for a trial; PROVENANCE says so")
    add("--no-deb", action="store_true", help="leave out the Debian package")
    add("--changed", action="store_true",
        help="also accept a clone with uncommitted changes, for a trial")
    given = parser.parse_args()
    try:
        commit = commit_of(given.changed)
        if given.check is not None:
            return check(given.check, given.program, commit)
        facts = {**gate_of(given, commit), "kit": kit(),
                 "program": "given, not built" if given.program else "proved and built"}
        place = given.out or TOP / "release" / version_of()
        place.mkdir(parents=True)
        with contextlib.ExitStack() as stack:
            stack.callback(shutil.rmtree, place, ignore_errors=True)
            release = gather(program_of(given.program, commit), commit, facts)
            for file in make(release, place, not given.no_deb):
                print(f"{file.stat().st_size:>9} {file}")
            stack.pop_all()
    except FileExistsError as fault:
        tell(f"release: {fault.filename} already exists: name a new folder")
        return 1
    return 0


if __name__ == "__main__":
    sys.exit(command("release", _main))
