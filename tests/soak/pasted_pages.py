"""Pastes what README, INSTALL, CLASS and FIRST_AGENT have typed, line by line, each page into a
shell of its own, in a fresh clone of the last commit.

    python3 -m tests.soak.pasted_pages SEED

A line goes wrong if its exit status is not 0, or if it prints an error. As the tables say, lines
that need what is not here are left out, and long games are shortened; the last but one line of
output counts both. An agent plays for the students. It takes five minutes, and needs bash and git.
"""

import os
import re
import shutil
import subprocess
import textwrap
import time
from collections import Counter
from pathlib import Path
from typing import Dict, Iterator, Tuple

from geesefuton import program
from geesefuton.processes import Children, free_port
from tests.support import soaking
from tests.support.trying import TOP

PAGES = ("README.md", "docs/INSTALL.md", "docs/CLASS.md", "docs/FIRST_AGENT.md")
MOST = 1800.0  # seconds that a line may take, on a busy machine
ERROR = re.compile(r"Traceback|[Ee]rror\b|[Nn]o such|there is no |not found|usage:")
BLOCKS = {"@misc": "a citation", "agent   ": "output"}  # how these begin, which nobody types
# How lines begin that are not typed here, and what is missing.
LEFT_OUT: Dict[str, str] = {
    **BLOCKS, "sudo ": "root", "podman ": "podman", 'cp -r "$(': "an installation",
    **dict.fromkeys(("sha256sum ", "tar ", "cd geese", "python3 -m venv ", ". tac-", "pip "),
                    "a release"),
    **({} if shutil.which("bwrap") else {"geesefuton tournament --apart ": "bubblewrap"})}
# What is typed in place of a part of a line, so that games are short and end by themselves.
SHORTER: Dict[str, str] = {
    "7000 500 ": "7000 20 ", "7000 2000 ": "7000 20 --start 2 ",
    "--pace 5000 --wait 15 ": "--pace 20 --wait 1 --games 1 ",
    "--pace 10000 --wait 300 ": "--pace 20 --wait 1 --games 1 ",
    "--slips term.html ": "--slips term.html --pace 20 --wait 1 --games 1 ",
    "--turns 40 ": "--turns 4 ", "--games 4 ": "--games 2 ", "--games 8 ": "--games 3 ",
    "--games 240 ": "--games 6 "}
# The student, who joins such games, has one of the words of a game, or of the teams.
STUDENT = "python3 examples/starters/starter.py localhost 7000 seat3 &\n"
JOINED = re.compile(r"geesefuton (room|lobby \S+ 7000 2000) ")
TEAM, PORT = ("' ants ", "' ants,seat3 "), ("geesefuton room ", "geesefuton room --port 7000 ")


def blocks_of(page: str) -> Iterator[str]:
    """The blocks of a page: those of Python, and those that are indented after an empty line."""
    for fenced, indented in re.findall(r"(?ms)^```python\n(.*?)^```$|\n\n((?:^ {4}.*?\n)+)", page):
        yield fenced or textwrap.dedent(indented)


def lines_of(block: str) -> Iterator[str]:
    """The lines of a block, several as one where bash needs them to understand it."""
    text = ""
    for line in block.splitlines(keepends=True):
        text += line
        asked = subprocess.run(["bash", "-n", "-c", text], stderr=subprocess.DEVNULL, check=False)
        if asked.returncode == 0 and not text.endswith("\\\n"):
            yield text.strip()
            text = ""
    if text:
        yield text.strip()


def typed(page: str, clone: Path) -> Iterator[str]:
    """The lines of a page. Its first block of Python is saved as an agent, and another one in place
    of that agent's loop, after which its games are played anew."""
    file, games = clone / "mine" / "mine.py", ""
    for block in blocks_of(page):
        if block.startswith('"""'):
            file.write_text(block)
        elif block.startswith("    "):
            agent = file.read_text()
            loop = agent.index(block.partition("\n")[0])
            file.write_text(agent[:loop] + block + agent[agent.index("    print(", loop):])
            yield games.replace("play1", "play2")
        else:
            for line in [block] if block.startswith(tuple(BLOCKS)) else lines_of(block):
                games = line if "--out play1" in line else games
                yield line


class Shell:
    """A shell in a fresh clone, with agents that play for students at a port of their own.

    Args:
        children: By which it is started.
        folder: For the clone and for what is printed.
    """

    def __init__(self, children: Children, folder: Path) -> None:
        self.clone, self._count = folder / "clone", 0
        self._printed, self._statuses = folder / "printed", folder / "statuses"
        self._ports = {"7000": str(free_port()), "7080": str(free_port())}
        subprocess.run(["git", "clone", "--quiet", TOP, self.clone], check=True)
        self._statuses.touch()
        self._shell = children.start(["bash"], cwd=self.clone, stdin=subprocess.PIPE,
                                     env={**os.environ, "TAC": program.find()})

    def fault(self, line: str) -> str:
        """What is wrong when a line is typed; "" if nothing is."""
        if JOINED.match(line):
            line = STUDENT + line
        for old, new in [*SHORTER.items(), TEAM, PORT, *self._ports.items()]:
            line = line.replace(old, new)
        assert self._shell.stdin is not None
        self._shell.stdin.write(f"{{ {line}\n}} > '{self._printed}' 2>&1 < /dev/null\n"
                                f"echo $? >> '{self._statuses}'\n".encode())
        self._shell.stdin.flush()
        self._count, end = self._count + 1, time.monotonic() + MOST
        while self._statuses.read_text().count("\n") < self._count:
            if self._shell.poll() is not None or time.monotonic() > end:
                return "it takes too long, or the shell has ended"
            time.sleep(0.05)
        status = self._statuses.read_text().split()[-1]
        printed = self._printed.read_text(errors="replace").splitlines()
        errors = [each for each in printed if ERROR.search(each)]
        return f"exit status {status}: {printed[-3:]}" if status != "0" else "; ".join(errors)


def soak(_: int, folder: Path, children: Children) -> Iterator[str]:
    """Pastes each page, and yields its lines that go wrong."""
    counts, pasted = Counter[str](), 0
    for page in PAGES:
        place = folder / Path(page).stem
        place.mkdir()
        shell = Shell(children, place)
        for line in typed((shell.clone / page).read_text(), shell.clone):
            why = [why for start, why in LEFT_OUT.items() if line.startswith(start)]
            counts.update([f"left out: {each}" for each in why])
            if why:
                continue
            counts.update(f"shortened: {old}-> {new}" for old, new in SHORTER.items()
                          if old in line)
            pasted += 1
            begun, fault = time.monotonic(), shell.fault(line)
            print(f"{page}, {time.monotonic() - begun:.0f} s: {line.splitlines()[0]}", flush=True)
            if fault:
                yield f"{page}: {line}: {fault}"
    told = ", ".join(f"{what} ({count})" for what, count in sorted(counts.items()))
    print(f"{pasted} lines pasted; {told}")


if __name__ == "__main__":
    soaking.main("pasted_pages", __doc__, soak)
