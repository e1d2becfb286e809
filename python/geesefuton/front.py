"""The command `geesefuton`: runs one of its parts, or the proved program."""

import difflib
import importlib
import os
import subprocess
import sys
from pathlib import Path
from typing import Dict, List, NamedTuple

from geesefuton import program
from geesefuton.arguments import Parser
from geesefuton.processes import Children, command, tell, wait_until

BUILD = "(cd crates/tacd && rt run -- make 42)"
BUILDING = "building the program and its proofs, in 15 minutes or more"


class Part(NamedTuple):
    """A part of the command. Its help, the man page and the completion are made from this table.

    Attributes:
        module: The module whose `main` runs it; "" for the program.
        words: What is typed after its name.
        does: What it does, in a few words.
    """

    module: str
    words: str
    does: str


PARTS: Dict[str, Part] = {
    "quickstart": Part("geesefuton.quickstart", "", "plays a first game of eight small agents"),
    "tac": Part("", "COMMAND ..", "runs a command of the proved program"),
    "lobby": Part("geesefuton.hosting.lobby_command", "GAME PORT PACE",
                  "hosts a game for agents on other machines"),
    "room": Part("geesefuton.practice.room_command", "",
                 "runs a practice room: game after game, with standings"),
    "live": Part("geesefuton.hosting.live", "JOURNAL PORT", "shows a hosted game on a page"),
    "recover": Part("geesefuton.hosting.recover_command", "JOURNAL",
                    "makes a log from a lobby's journal"),
    "vouch": Part("geesefuton.hosting.vouch_command", "GAME LOG MINE",
                  "checks whether a log is right about links"),
    "report": Part("geesefuton.experiments.report_command", "GAME LOG",
                   "makes a page of a game, or of the games of a tournament"),
    "tournament": Part("geesefuton.experiments.tournament", "AGENT .. --out FOLDER",
                       "plays many games between agents, and compares them"),
    "benchmark": Part("geesefuton.experiments.benchmark", "LIST AGENT --out FOLDER",
                      "compares an agent with the reference agents on known deals"),
    "profiles": Part("geesefuton.experiments.profiles", "AGENT .. --out FOLDER",
                     "plays every profile of some strategies"),
    "deals": Part("geesefuton.experiments.deals_command", "FOLDER",
                  "makes the games of a run again from its secret"),
    "data": Part("geesefuton.experiments.data_command", "FOLDER OUT",
                 "writes a tournament's games as tables"),
    "doctor": Part("geesefuton.doctor", "", "checks that this machine has what is needed"),
    "version": Part("geesefuton.doctor", "", "shows the version, the program and its hash"),
}
COMMANDS = ("audit", "hotel", "make", "play", "serve", "show", "solve", "step", "table", "trial",
            "upgrade", "vouch", "worth")  # of the program


def _help() -> str:
    return "\n".join([
        "usage: geesefuton PART [WORDS ..]", "",
        "Hosts games of TAC Classic, and compares agents. PART --help describes a part.",
        "", *(f"  {name:<12}{part.does}" for name, part in PARTS.items())])


def _meant(word: str) -> str:
    """What may be meant by a word that is no part."""
    near = difflib.get_close_matches(word, [*PARTS, *COMMANDS], 1)
    if not near:
        return ""
    return f"; `geesefuton {near[0] if near[0] in PARTS else f'tac {near[0]}'}`?"


def build(clone: Path, name: str) -> Path:
    """Proves all crates of a clone as they stand, builds the program, and gives its file.

    If neither the program nor a file that it was built from has changed since, the toolchain
    leaves it as it is.

    Args:
        clone: The top folder of the clone.
        name: The name of the command, which tells of it.

    Raises:
        ProgramError: The toolchain builds no program.
    """
    file = program.built_in(clone)
    with Children() as children:
        printed = children.folder("build") / "printed"
        with printed.open("wb") as out:
            child = children.start(["rt", "run", "--", "make", "42"], cwd=file.parents[1],
                                   stdin=subprocess.DEVNULL, stdout=out, stderr=out)
        wait_until(lambda: child.poll() is not None, f"{name}: {BUILDING}")
        said = printed.read_text(errors="replace").strip()
    if child.returncode:
        raise program.ProgramError(f"{BUILD} ended with {child.returncode}: "
                                   f"{said.splitlines()[-1][:200] if said else 'no output'}")
    if not file.is_file():
        raise program.ProgramError(f"there is no file {file}, although {BUILD} passed")
    return file


def _run_tac(words: List[str]) -> int:
    """Becomes the program, so that its output and its exit status are untouched. Where it has no
    such command it is neither run nor built."""
    name = (words or [""])[0]
    if name not in COMMANDS:
        tell(f"geesefuton: tac has no command {name!r}{_meant(name)} (it has "
             f"{', '.join(COMMANDS)})")
        return 1
    clone = program.to_build()
    if clone is not None:
        build(clone, "geesefuton")
    file = program.find_runnable()
    try:
        os.execv(file, [file, *words])
    except OSError as fault:
        raise program.ProgramError(program.why_not_run(file, fault)) from None


def main() -> int:
    """The command `geesefuton`."""
    return command("geesefuton", _main)


def _main() -> int:
    name, words = (sys.argv[1:2] or ["--help"])[0], sys.argv[2:]
    if name in ("-h", "--help", "help"):
        print(_help())
        return 0
    if name == "--version":
        name = "version"
    if name not in PARTS:
        tell(f"geesefuton: there is no part {name!r}{_meant(name)} (--help lists them)")
        return 2
    if name == "tac":
        return _run_tac(words)
    Parser.before = "geesefuton "
    sys.argv = [name, *words]
    status: int = getattr(importlib.import_module(PARTS[name].module),
                          "version" if name == "version" else "main")()
    return status
