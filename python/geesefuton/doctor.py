"""The commands `version` and `doctor`: what is installed, and what this machine lacks."""

import hashlib
import json
import os
import platform
import socket
import subprocess
import sys
from pathlib import Path
from typing import Dict, Iterator, List, Optional, Tuple

import geesefuton
from geesefuton import program
from geesefuton.arguments import Parser
from geesefuton.network.addresses import own_addresses
from geesefuton.processes import Output, command, free_port, tell

PROVENANCE = Path(__file__).resolve().with_name("provenance.json")  # written by a release
PORT = 7000  # the port of the documents' examples


def provenance() -> Optional[Dict[str, str]]:
    """What a release says of itself: `commit`, `kit`, `gate`, whether its `program` was built for
    it, and the program's `sha256`. None in a clone."""
    try:
        told = json.loads(PROVENANCE.read_text(encoding="ascii"))
    except (OSError, ValueError):
        return None
    return {str(key): str(value) for key, value in told.items()}


def hash_of(file: str) -> str:
    """The SHA-256 of a file, in hexadecimal digits."""
    return hashlib.sha256(Path(file).read_bytes()).hexdigest()


def _clone_commit() -> Optional[str]:
    clone = program.top()
    if clone is None:
        return None
    try:
        done = subprocess.run(["git", "-C", str(clone), "rev-parse", "HEAD"], check=False,
                              stdout=subprocess.PIPE, stderr=subprocess.DEVNULL, text=True)
    except OSError:
        return None
    return done.stdout.strip() or None


def _origin(digest: str) -> str:
    """Where a program with this hash comes from, as far as the package knows."""
    told = provenance()
    if told is None:
        commit = _clone_commit()
        return f"built in a clone at commit {commit}" if commit else "of unknown origin"
    if told.get("sha256") == digest:
        return f"as released, {told['program']} at commit {told['commit']} with {told['kit']}"
    return "not the released one, whose hash is " + told.get("sha256", "unknown")


def _platform() -> str:
    library, number = platform.libc_ver()
    return f"{platform.system()} {platform.machine()}, {library or 'no glibc'} {number}".rstrip()


def _program_lines() -> Iterator[str]:
    try:
        file = program.find()
        digest = hash_of(file)
    except (program.ProgramError, OSError) as fault:
        yield f"program: none: {fault}"
        return
    yield f"program: {file}"
    yield f"  sha256 {digest}"
    yield f"  {_origin(digest)}"


def version() -> int:
    """The command `geesefuton version`."""
    return command("version", _version)


def _version() -> int:
    Parser("version", "Shows the version, the program with its hash, and the platform."
           ).parse_args()
    lines = [f"geesefuton {geesefuton.__version__}", *_program_lines(),
             f"platform: {_platform()}; Python {platform.python_version()}"]
    return _print("version", lines)


def _print(name: str, lines: List[str]) -> int:
    out = Output(1)
    if not out.write("\n".join(lines) + "\n"):
        tell(f"{name}: {out.name}: {out.fault}")
        return 1
    return 0


# What is at hand.


Finding = Tuple[bool, str]  # whether it is as it should be, and a line that says so or what to do


def _runs_here() -> bool:
    """Whether the program is one for this system."""
    return platform.system() == "Linux" and platform.machine() in ("x86_64", "AMD64")


def _system() -> Finding:
    return True, f"platform: {_platform()}" + ("" if _runs_here() else (
        "; agents run here; the program, which hosts games, needs x86-64 Linux"))


def _library() -> Finding:
    name, parts = program.library()
    number, least = (".".join(map(str, each)) for each in (parts, program.LEAST_LIBRARY))
    if name == "glibc" and parts >= program.LEAST_LIBRARY:
        return True, f"C library: glibc {number}"
    return False, (f"C library: {name or 'unknown'} {number}; the program needs glibc {least} or "
                   "later: use a newer system, or build it here with the toolchain")


def _file() -> Finding:
    try:
        file = program.find()
        return True, f"program: {file}, sha256 {hash_of(file)[:16]}.."
    except (program.ProgramError, OSError) as fault:
        return False, f"program: {fault}"


def _runs() -> Finding:
    try:
        made = program.run("make", 1, timeout=20.0)
    except program.ProgramError as fault:
        return False, f"program runs: no: {fault}"
    is_due = made.startswith("tac 1\n")
    return is_due, ("program runs: yes" if is_due else
                    "program runs: no: it makes no game; is it GNU tac? Set TAC to the right file")


def _hash() -> Finding:
    told = provenance()
    if told is None:
        return True, "hash: nothing to compare with, since this is not a release"
    try:
        digest = hash_of(program.find())
    except (program.ProgramError, OSError):
        return False, "hash: there is no program"
    is_due = digest == told.get("sha256")
    return is_due, ("hash: as released" if is_due else
                    "hash: differs from the released one: unpack or install it again, unset TAC, "
                    "or build it yourself")


def _python() -> Finding:
    is_due = sys.version_info >= (3, 9)
    return is_due, f"Python: {platform.python_version()}" + (
        "" if is_due else "; 3.9 or later is needed")


def _ports() -> Finding:
    with socket.socket() as probe:
        probe.setsockopt(socket.SOL_SOCKET, socket.SO_REUSEADDR, 1)
        try:
            probe.bind(("", PORT))
        except OSError as fault:
            return False, (f"port {PORT}: {fault.strerror}; use another, such as {free_port()} "
                           f"(`ss -ltnp` shows which process has it)")
    return True, f"port {PORT}: free"


def _addresses() -> Finding:
    """The addresses by which other machines reach this one."""
    found = own_addresses()
    if found:
        return True, f"addresses: {' '.join(found)}"
    return True, "addresses: none but this machine's own; to play with others, join their network"


def _files() -> Finding:
    import resource  # Windows has none
    soft, _ = resource.getrlimit(resource.RLIMIT_NOFILE)
    return soft < 0 or soft >= 256, f"open files: {soft} at most" + (
        "" if soft < 0 or soft >= 256 else ": run `ulimit -n 1024` before the lobby")


def _folder() -> Finding:
    is_due = os.access(".", os.W_OK)
    return is_due, "this folder: writable" if is_due else (
        "this folder: not writable: use one that is, for logs and journals")


FINDINGS = (_system, _library, _file, _runs, _hash, _python, _ports, _addresses, _files, _folder)
OF_AGENTS = (_system, _python, _addresses, _folder)  # where agents alone run


def main() -> int:
    """The command `geesefuton doctor`."""
    return command("doctor", _doctor)


def _doctor() -> int:
    Parser("doctor", "Checks what this machine has and lacks, and how to get what is missing.\n"
           "The exit status is 1 if something is missing.").parse_args()
    findings = [look() for look in (FINDINGS if _runs_here() else OF_AGENTS)]
    status = _print("doctor", [f"{'ok  ' if is_due else 'FIX '} {text}"
                               for is_due, text in findings])
    return status or int(not all(is_due for is_due, _ in findings))
