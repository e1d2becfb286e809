"""Agents as they are given: their names and words, and what is kept of their files."""

import os
import shutil
import sys
import tempfile
import unittest
from dataclasses import replace
from pathlib import Path
from typing import Any, List, Tuple
from unittest import mock

from geesefuton.experiments.entrants import (EntrantError, environment, read_entrant,
                                             read_entrants, seat_words)
from geesefuton.experiments.provenance import (Agent, agent_of, commit, digest_of, machine,
                                               names_text, package_digest, read_settings,
                                               settings_text, unlike)
from tests.package.helpers import PACKAGE
from tests.package.run_cases import PlaceCase


class Entrants(PlaceCase):
    def named(self, *commands: str) -> List[Tuple[str, str]]:
        """The names of agents, and the roots of their words."""
        return [(entrant.name, entrant.root) for entrant in read_entrants(commands)]

    def file(self, name: str, mode: int = 0o644) -> str:
        file = self.write(name, "#!/bin/sh\n")
        file.chmod(mode)
        return str(file)

    def test_a_python_file_is_run_by_this_python(self) -> None:
        entrant = read_entrant(os.path.relpath(self.file("My-Agent 2.py")).replace(" ", "\\ "))
        self.assertEqual(entrant.words, (sys.executable, str(self.folder / "My-Agent 2.py")))
        self.assertEqual((entrant.name, entrant.root), ("My-Agent 2", "myagent2"))
        entrant = read_entrant(f"'{self.file('mine.py')}' --seed 5")  # named by the file
        self.assertEqual((entrant.words[2:], entrant.name, entrant.root),
                         (("--seed", "5"), "mine", "mine"))

    def test_a_file_in_a_folder_of_any_name_is_an_agent(self) -> None:
        files = [self.file("my team/agent.py"), self.file("o'brien/agent.py")]
        entrants = read_entrants(files)
        self.assertEqual([entrant.words for entrant in entrants],
                         [(sys.executable, file) for file in files])
        self.assertEqual([entrant.name for entrant in entrants], ["my team", "o'brien"])

    def test_a_name_that_a_table_would_take_for_a_formula_is_refused(self) -> None:
        for name in ("=1+2", "+a", "-b", "@c"):
            with self.assertRaisesRegex(EntrantError, "called .* reads as a formula in a table"):
                read_entrants([self.file(f"{name}.py")])

    def test_a_command_keeps_its_words(self) -> None:
        program = self.file("run", 0o755)
        entrant = read_entrant(f"{program} -x 'two words' their.jar")
        self.assertEqual(entrant.words, (program, "-x", "two words", "their.jar"))
        self.assertEqual((entrant.name, entrant.root), ("their", "their"))
        self.assertEqual(read_entrant("sh -c true").words, (shutil.which("sh"), "-c", "true"))
        entrant = read_entrant(f"sh {self.file('mine.jar')} -x 5")  # named by the file
        self.assertEqual((entrant.words[2:], entrant.name), (("-x", "5"), "mine"))

    def test_what_cannot_be_run_is_told(self) -> None:
        for command, told in (("", "not an empty word"), ("  ", "not an empty word"),
                              ("mine 'theirs", "no closing quotation"),
                              ("none.py", "there is no file none.py"),
                              ("no-such-program x", "there is no program no-such-program"),
                              (self.file("theirs.jar"),
                               r"is not executable: chmod \+x it, or give")):
            self.assertRaisesRegex(EntrantError, told, read_entrant, command)

    def test_roots_are_seat_words(self) -> None:
        self.assertEqual(read_entrant(self.file("---.py")).root, "agent")
        self.assertEqual(read_entrant(self.file("abcdefghijklmnopq.py")).root, "abcdefghijkl")

    def test_different_agents_of_one_name_are_told_apart(self) -> None:
        first, second = self.file("one/mine.py"), self.file("two/mine.py")
        other, deep = self.file("other.py"), self.file("deep/one/mine.py")
        self.assertEqual(self.named(first, other, second, first), [
            ("one", "mine1"), ("other", "other"), ("two", "mine2"), ("one", "mine1")])
        self.assertEqual(self.named(first, other, other),  # an agent may be given twice
                         [("mine", "mine"), ("other", "other"), ("other", "other")])
        variant, two = f"{first} --set SHADE=1.0", self.file("two.py")
        for commands, names in (
                ([first, variant], ["mine", "mine --set SHADE=1.0"]),
                ([first, variant, second], ["one", "mine --set SHADE=1.0", "two"]),
                # Folders of one name are no names, nor are those of other agents.
                ([first, second, deep], [first, "two", deep]),
                ([first, second, two], ["one", second, two])):
            self.assertEqual([name for name, _ in self.named(*commands)], names)

    def test_agents_are_numbered_as_they_are_given(self) -> None:
        files = [self.file("one/mine.py"), self.file("two/mine.py")]
        for commands in (files, files[::-1]):
            entrants = read_entrants(commands)
            self.assertEqual([entrant.command for entrant in entrants], commands)
            self.assertEqual([entrant.root for entrant in entrants], ["mine1", "mine2"])
        # Names that are different stay, also where the seat words have one beginning.
        self.assertEqual(self.named(self.file("My-Agent.py"), self.file("myagent.py")),
                         [("My-Agent", "myagent1"), ("myagent", "myagent2")])

    def test_seat_words_are_eight_different_ones_and_none_the_root_of_another_agent(self) -> None:
        a, b, ab = read_entrants([self.file(f"{name}.py") for name in ("a", "b", "ab")])
        for entrants, words in (([a, a, ab, a], "a ac ab ad"), ([ab, a, a], "ab a ac"),
                                ([a, b] * 4, "a b ab bb ac bc ad bd"),
                                ([a, ab] * 4, "a ab ac abb ad abc ae abd")):
            self.assertEqual(seat_words(entrants), words.split())
        self.assertEqual(len(set(seat_words([a] * 8))), 8)
        long = read_entrants([self.file("abcdefghijklmnop.py"), self.file("x/abcdefghijklmnop.py")])
        words = seat_words(long * 4)
        self.assertEqual((len(set(words)), max(map(len, words)) <= 16), (8, True))

    def test_an_agent_finds_the_package_and_the_program(self) -> None:
        mine = {"PYTHONUNBUFFERED": "", "PYTHONPATH": "/mine"}
        with mock.patch.dict(os.environ, mine):
            variables = environment("/some/tac", Path("/some/folder"))
        self.assertEqual(variables, {
            **os.environ, "TMPDIR": "/some/folder", "TAC": "/some/tac", "PYTHONUNBUFFERED": "1",
            "PYTHONPATH": os.pathsep.join([str(PACKAGE), "/mine"])})


class Agents(PlaceCase):
    def setUp(self) -> None:
        super().setUp()
        for name, text in (("mine.py", "import os\nfrom helper import x\n"),
                           ("helper.py", "import deep\nx = 1\n"), ("deep.py", "\n"),
                           ("other.py", "\n")):
            self.write(name, text)

    def agent(self, words: str = "", *more: Any, **how: Any) -> Agent:
        return agent_of(read_entrant(f"{self.folder / 'mine.py'} {words}"), *more, **how)

    def outside(self) -> Path:
        """Another folder."""
        return Path(self.enter(tempfile.TemporaryDirectory())).resolve()

    def digest(self, words: str = "") -> str:
        return self.agent(words).digest

    def test_links_to_files_of_the_folder_count_and_others_are_refused_unread(self) -> None:
        digest = self.digest()
        (self.folder / "again").symlink_to(".")
        self.assertEqual(self.digest(), digest)
        (self.folder / "same.py").symlink_to("helper.py")
        self.assertEqual(self.agent().files["same.py"], self.agent().files["helper.py"])
        for target in ("/proc/kmsg", "/usr", "../elsewhere"):
            (self.folder / "notes").symlink_to(target)
            self.assertRaisesRegex(EntrantError, "notes leads out of its folder", self.agent)
            (self.folder / "notes").unlink()

    def test_files_are_those_of_the_folder_and_those_below(self) -> None:
        for name in ("strategy/__init__.py", ".git/x", "__pycache__/x.pyc", "runs/1/run.json",
                     "venv/pyvenv.cfg", "study/secret"):
            self.write(name, "1")
        agent = self.agent()
        self.assertEqual(sorted(agent.files), ["deep.py", "helper.py", "mine.py", "other.py",
                                               "strategy/__init__.py"])
        self.assertEqual(agent.files["deep.py"], digest_of(self.folder / "deep.py"))
        self.assertEqual((agent.name, list(agent.words)), ("mine", ["mine.py"]))
        summary = self.write("s.json", "{}")
        self.assertEqual(self.agent(without=summary).digest, agent.digest)

    def test_each_file_and_each_word_changes_the_digest(self) -> None:
        self.write("strategy/__init__.py", "SHADE = 300\n")
        self.write("weights.json", "[1]")
        self.assertNotEqual(self.digest("--shade 1"), self.digest("--shade 2"))
        for name in ("strategy/__init__.py", "weights.json", "deep.py"):
            before = self.digest()
            self.assertEqual(self.digest(), before)
            self.write(name, "9000\n")
            self.assertNotEqual(self.digest(), before, name)

    def test_files_and_folders_that_words_name(self) -> None:
        place = self.outside()
        (place / "model").write_text("1")
        (place / "nets").mkdir()
        (place / "nets" / "a").write_text("1")
        for words, file in ((str(place / "model"), "model"),
                            (f"--model={place / 'model'}", "model"),
                            (str(place / "nets"), "nets/a")):
            before = self.digest(words)
            (place / file).write_text((place / file).read_text() + "2")
            self.assertNotEqual(self.digest(words), before, words)
        self.assertEqual(list(self.agent(f"--model={place / 'model'}").words),
                         ["mine.py", "--model=model"])

    def test_files_may_be_narrowed(self) -> None:
        self.write("notes.txt", "x")
        self.assertEqual(sorted(self.agent("", ["h*.py"]).files), ["helper.py", "mine.py"])
        with mock.patch("geesefuton.experiments.provenance.MOST_FILES", 3), \
                self.assertRaisesRegex(EntrantError, "more than 3 files"):
            self.agent()

    def test_the_place_of_the_folder_changes_nothing(self) -> None:
        first = self.digest()
        self.folder = shutil.copytree(self.folder, self.outside() / "moved")
        self.assertEqual(self.digest(), first)

    def test_a_program_that_is_found_by_its_name_is_one_file_of_an_agent(self) -> None:
        agent = agent_of(read_entrant(f"sh {self.folder / 'mine.py'}"))
        self.assertEqual(sorted(agent.files), ["deep.py", "helper.py", "mine.py", "other.py", "sh"])
        self.assertEqual(list(agent.words), ["sh", "mine.py"])
        own = self.write("bin/bot", "#!/bin/sh\n")
        own.chmod(0o755)
        with mock.patch.dict(os.environ, {"PATH": f"{own.parent}:{os.environ['PATH']}"}):
            first = agent_of(read_entrant("bot"))
            self.assertEqual(sorted(first.files), ["bot"])
            own.write_text("#!/bin/sh\n# another version\n")
            self.assertNotEqual(agent_of(read_entrant("bot")).digest, first.digest)

    def test_versions_of_imported_libraries_are_told(self) -> None:
        self.write("mine.py", "import numbers_of_pi, os\nfrom . import helper\n")
        with mock.patch("geesefuton.experiments.provenance._installed", lambda: {
                "numbers_of_pi": [("pi", "3.14")], "unused": [("other", "1")]}):
            agent = self.agent()
        self.assertEqual(agent.libraries, {"pi": "3.14"})
        self.assertNotEqual(agent.digest, replace(agent, libraries={"pi": "3.15"}).digest)

    def test_a_file_that_cannot_be_read_as_python(self) -> None:
        (self.folder / "mine.py").write_bytes(b"def \xff(")
        self.assertIn("mine.py", self.agent().files)


class Settings(unittest.TestCase):
    def test_texts(self) -> None:
        settings = {"turns": 40, "rooms": "3..6", "live": "true"}
        text = settings_text(settings)
        self.assertEqual(text, "turns=40 rooms=3..6 live=true")
        self.assertEqual(read_settings(text), {"turns": "40", "rooms": "3..6", "live": "true"})
        self.assertEqual(read_settings(""), {})
        self.assertEqual(unlike(settings, read_settings(text)), [])
        self.assertEqual(unlike(settings, {"turns": "20", "rooms": "3..6", "pace": "9"}),
                         ["turns is 20, not 40", "live is not set, not true",
                          "pace is 9, not set"])

    def test_names(self) -> None:
        self.assertEqual(names_text(["a", "b", "b", "a"]), "a+b+b+a")
        self.assertEqual(names_text(["x.py --set A=1.0, b*2"]), "x.py%20--set%20A%3D1.0%2C%20b%2A2")

    def test_what_a_record_has(self) -> None:
        self.assertEqual(len(package_digest()), 64)
        self.assertRegex(commit(), r"^([0-9a-f]{40}(-dirty)?)?$")
        self.assertEqual(machine()["python"], sys.version.split()[0])
