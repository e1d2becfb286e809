"""Releases that are made from stand-ins for the program and for the toolchain that builds it, and
whether they tell a change.

What a release needs is committed in a repository of its own, and cloned. One of both makes the
archive, the wheel and, where there is dpkg-deb, the Debian package; the other one makes them again
and compares. Both have another program where the built one is due, which must not get into a
release.
"""

import os
import shutil
import sys
import tarfile
import tempfile
import unittest
import zipfile
from pathlib import Path
from typing import ClassVar, Iterator, Tuple

from tests.package.helpers import TOP, completed

sys.path.insert(0, str(TOP / "packaging"))

import gate_log  # noqa: E402

STANDIN = "#!/bin/sh\n[ $# = 2 ] && [ $1 = make ] && echo 'tac 1' && exit 0\necho usage\nexit 1\n"
SOURCE, PROGRAM = "crates/tacd/source", "crates/tacd/out/tacd"  # of the stand-in for rt
RT = """#!/bin/sh
case "$*" in
    version) echo 'a kit'; echo 'of two lines';;
    'run -- make 42') mkdir -p out && cp source out/tacd && echo 'tac 1';;
    *) exit 9;;
esac
"""
BROKEN = "#!/bin/sh\n[ $1 = version ] || { echo proving; echo 'no proof of main'; exit 3; } >&2\n"
PARTS = ("README.md", "LICENSE", "CHANGELOG.md", "CITATION.cff", ".gitignore", "geesefuton",
         "examples", "docs", "python/geesefuton", "python/README.md",
         "python/pyproject.toml", "packaging")
WORK = "handles allowed: Net; must-fail edits: 1 refused; every proof was done in this run"
PASSED = f"rt: ok; {WORK}\n3 passed, 0 failed\n"
TIMES = "\nreal\t2m30.000s\nuser\t5m0.500s\nsys\t0m29.500s\n"  # 2.5 minutes, and 5.5 of processors


def git(place: Path, *words: str) -> str:
    """Runs git in a folder, as somebody, and gives what it prints."""
    name = ["-c", "user.name=somebody", "-c", "user.email=somebody@example.invalid"]
    return str(completed("git", "-C", place, *name, *words, check=True).stdout)


def clones(place: Path) -> Tuple[Path, Path]:
    """Two clones, in different folders, of a commit of what a release needs."""
    first, second = place / "first", place / "other" / "second"
    for name in git(TOP, "ls-files", "--cached", "--others", "--exclude-standard",
                    *PARTS).splitlines():
        if (TOP / name).is_file():
            (first / name).parent.mkdir(parents=True, exist_ok=True)
            shutil.copy2(TOP / name, first / name)
    script((first / SOURCE).parent, "source", STANDIN)
    git(first, "init", "--quiet")
    git(first, "add", "--all")
    git(first, "commit", "--quiet", "--message", "A commit")
    git(place, "clone", "--quiet", str(first), str(second))
    return first, second


def script(folder: Path, name: str, text: str) -> Path:
    """A script in a new folder, which is given."""
    folder.mkdir(parents=True)
    (folder / name).write_text(text)
    (folder / name).chmod(0o755)
    return folder


def release(clone: Path, *words: object, path: str = "") -> "subprocess.CompletedProcess[str]":
    """Makes a release of a clone, with another PATH if one is given."""
    return completed(sys.executable, clone / "packaging" / "release.py", *words,
                     env={"PATH": path or os.environ["PATH"], "PYTHONPATH": ""})


def toolchain(place: Path, text: str) -> str:
    """A PATH with a stand-in for rt before all else."""
    return f"{script(place, 'rt', text)}{os.pathsep}{os.environ['PATH']}"


def git_alone(place: Path) -> str:
    """A PATH with git and the shell, and no toolchain."""
    place.mkdir()
    for name in ("git", "sh"):
        (place / name).symlink_to(shutil.which(name) or "/nowhere")
    return str(place)


def refused_logs(commit: str) -> Iterator[Tuple[str, str]]:
    """Logs of which no release of a commit is made, and what is said of each after its name."""
    yield PASSED + TIMES, " names no commit; "
    yield f"{'0' * 40}\n{PASSED}{TIMES}", f" is of commit {'0' * 40}, but this clone is at {commit}"
    yield (f"{commit}\nrt: FAILED: tacd\n2 passed, 1 failed\n{TIMES}",
           ": the gate did not pass: 2 passed, 1 failed")
    some = "3 passed, 0 failed (floor and the crates below alone: not the gate)"
    yield f"{commit}\n{some}\n{TIMES}", f": the gate did not pass: {some}"
    yield f"{commit}\n{PASSED}{TIMES}{commit}\n", ": the gate did not pass: it has no last line"
    yield f"{commit}\n{PASSED}", " has no minutes; "


def run(top: Path, *words: str) -> "subprocess.CompletedProcess[str]":
    """Runs the command `geesefuton` of an unpacked archive."""
    return completed(sys.executable, "-m", "geesefuton", *words, cwd=top / "python",
                     env={"TAC": "", "PYTHONPATH": ""})


class Release(unittest.TestCase):
    place: ClassVar[Path]
    first: ClassVar[Path]
    second: ClassVar[Path]
    commit: ClassVar[str]

    @classmethod
    def setUpClass(cls) -> None:
        folder = tempfile.TemporaryDirectory()
        cls.addClassCleanup(folder.cleanup)
        cls.place = Path(folder.name)
        cls.first, cls.second = clones(cls.place)
        cls.commit = git(cls.first, "rev-parse", "HEAD").strip()

    def setUp(self) -> None:
        self.log = self.place / "gate.log"
        self.log.write_text(f"{self.commit}\n{PASSED}{TIMES}")

    def test_logs_that_are_refused(self) -> None:
        for text, due in refused_logs(self.commit):
            self.log.write_text(text)
            with self.subTest(due), self.assertRaises(gate_log.GateError) as caught:
                gate_log.read(self.log, self.commit)
            self.assertTrue(str(caught.exception).startswith(f"{self.log}{due}"), caught.exception)
            self.assertNotIn("\n", str(caught.exception))

    def refused(self, due: str, *words: object, path: str = "") -> None:
        """A release is refused by an error of one line that has a part."""
        done = release(self.first, *words, path=path)
        self.assertTrue(done.returncode and not done.stdout, done)
        self.assertRegex(done.stderr, "^release: .*\n$")
        self.assertIn(due, done.stderr)

    def test_words_and_clones_that_are_refused(self) -> None:
        self.refused("give --gate LOG")
        self.refused("Is a directory", "--gate", self.place)
        self.refused("nothing: No such file or directory", "--gate", self.log, "--program",
                     "nothing")
        self.refused("there is no command rt in PATH", "--gate", self.log,
                     path=git_alone(self.place / "git"))
        broken = release(self.first, "--gate", self.log,
                         path=toolchain(self.place / "broken", BROKEN))
        self.assertEqual((broken.returncode, broken.stdout), (1, ""))
        self.assertTrue(broken.stderr.endswith("run -- make 42) ended with 3: no proof of main\n"),
                        broken.stderr)
        self.assertEqual(list((self.first / "release").glob("*")), [])
        (self.first / "README.md").write_text("changed")
        self.addCleanup(git, self.first, "checkout", "--quiet", "README.md")
        self.refused("uncommitted changes, such as 'M README.md'", "--gate", self.log)

    def test_a_release_is_made_checked_and_tells_a_change(self) -> None:
        made, path = self.place / "made", toolchain(self.place / "rt", RT)
        for clone in (self.first, self.second):
            (clone / PROGRAM).parent.mkdir(exist_ok=True)
            (clone / PROGRAM).write_text("a program of another commit")
        done = release(self.first, "--gate", self.log, "--out", made,
                       *([] if shutil.which("dpkg-deb") else ["--no-deb"]), path=path)
        self.assertEqual(done.returncode, 0, done.stderr)
        told = (made / "PROVENANCE").read_text().splitlines()
        for line in (f"commit: {self.commit}", "gate: 3 passed, 0 failed", f"gate-work: {WORK}",
                     "gate-minutes: 2.5 by the clock, 5.5 of processors",
                     "kit: a kit; of two lines", "program: proved and built"):
            self.assertIn(line, told)
        checked = release(self.second, "--check", made, path=path)
        self.assertEqual(checked.returncode, 0, checked.stderr)
        self.look_at_the_archive(next(made.glob("*.tar.gz")))
        wheel = next(made.glob("*.whl"))
        self.look_at_the_wheel(wheel)
        data = bytearray(wheel.read_bytes())
        data[len(data) // 2] ^= 1
        wheel.write_bytes(data)
        checked = release(self.second, "--check", made, path=path)
        self.assertEqual(checked.returncode, 1)
        self.assertTrue(checked.stderr.endswith(f"\nrelease: {wheel.name}: differs\n"),
                        checked.stderr)

    def look_at_the_archive(self, archive: Path) -> None:
        """Its commands run the released program."""
        place = self.place / "unpacked"
        with tarfile.open(archive) as tar:
            tar.extractall(place, filter="data") if sys.version_info >= (3, 12) else \
                tar.extractall(place)
        top, = place.iterdir()
        for words, due in ((("tac", "make", "1"), (0, "tac 1\n")),
                           (("tac", "make"), (1, "usage\n"))):
            done = run(top, *words)
            self.assertEqual((done.returncode, done.stdout), due)
        self.assertIn("as released", run(top, "version").stdout)

    def look_at_the_wheel(self, wheel: Path) -> None:
        """Its record names all that it has, and its program can be executed."""
        with zipfile.ZipFile(wheel) as zipped:
            names = zipped.namelist()
            record = next(name for name in names if name.endswith("/RECORD"))
            told = {line.split(",")[0] for line in zipped.read(record).decode().splitlines()}
            mode = zipped.getinfo("geesefuton/bin/tac").external_attr >> 16
        self.assertEqual(told, set(names))
        self.assertEqual(mode & 0o111, 0o111)
