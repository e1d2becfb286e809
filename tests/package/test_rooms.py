"""The check of the package's rooms, on small packages with faults."""

import importlib
import shutil
import sys
import unittest
from pathlib import Path
from typing import List
from unittest import mock

from tests.package.cases import Case
from tests.package.helpers import TOP

with mock.patch.object(sys, "path", [str(TOP / "tests" / "lint"), *sys.path]):
    rooms, tree = (importlib.import_module(name) for name in ("rooms", "tree"))

BASE = "class Base:\n    def _own(self): self._count = 1\n    def told(self): return 1\n"


class Rooms(Case):
    def faults(self, **files: str) -> List[str]:
        """The faults of a package of these modules, `room_module` each, without their folder."""
        package = self.folder / "geesefuton"
        shutil.rmtree(package, ignore_errors=True)
        for name, text in {"": "", **files}.items():
            self.write(f"geesefuton/{name.replace('_', '/') or '__init__'}.py", text)
        found: List[str] = rooms.faults_of(rooms.read_modules(package))
        return [fault.replace(f"{package}/", "") for fault in found]

    def test_imports_go_downwards(self) -> None:
        for name, text in (("hosting_lobby", "from geesefuton.link import Link\n"),
                           ("hosting_lobby", "from geesefuton.hosting import events\n"),
                           ("experiments_match", "from geesefuton.learning.stepping import X\n"),
                           ("arguments", "from geesefuton.processes import tell\n"),
                           ("link", "import os, geesefuton.records.games\n")):
            self.assertEqual(self.faults(**{name: text}), [])
        for name, text in (("records_logs", "from geesefuton.link import Link\n"),
                           ("hosting_lobby", "from geesefuton.learning import stepping\n"),
                           ("learning_steps", "import geesefuton.hosting.lobby\n"),
                           ("processes", "from geesefuton.records.games import GOODS\n"),
                           ("", "from geesefuton.link import Link\n"),
                           ("link", "def late():\n    from geesefuton.hosting import lobby\n")):
            with self.subTest(name=name, text=text):
                found = self.faults(**{name: text})
                self.assertEqual(len(found), 1)
                self.assertIn("may not import geesefuton.", found[0])

    def test_a_text_that_names_a_module_imports_it(self) -> None:
        for text in ('RUN = "geesefuton.hosting.lobby"\n', 'RUN = "geesefuton.hosting.lobby:X"\n'):
            found = self.faults(link=text, hosting_lobby="")
            self.assertEqual(found, ["link.py:1: link may not import geesefuton.hosting.lobby"])
            self.assertEqual(self.faults(practice_room=text, hosting_lobby=""), [])

    def test_a_room_has_to_be_listed(self) -> None:
        self.assertIn("the room attic is not listed", self.faults(attic_things="")[0])

    def test_private_members_stay_in_their_modules(self) -> None:
        for text in ("from geesefuton.link import _connect\n", "def f(link): return link._word\n",
                     "from geesefuton.link import Base\nclass Mine(Base):\n"
                     "    def f(self): return self._count\n",
                     "from geesefuton import link\nclass Mine(link.Base):\n"
                     "    def _own(self): pass\n"):
            with self.subTest(text=text):
                found = self.faults(link=BASE, hosting_lobby=text)
                self.assertEqual(len(found), 1, found)
                self.assertRegex(found[0], "^hosting/lobby.py:[0-9]+: .*(private to|extends)")
        for text in ("def f(told): return told._asdict()\n", BASE + "def f(it): return it._count\n",
                     "from geesefuton.link import Base\nclass Mine(Base):\n"
                     "    def _mine(self): return self._mine() + self.told()\n"):
            self.assertEqual(self.faults(link=BASE, hosting_lobby=text), [])

    def test_modules_are_short(self) -> None:
        self.assertEqual(self.faults(link="\n" * 499), [])
        self.assertEqual(self.faults(link="\n" * 500),
                         ["link.py:500: modules have fewer than 500 lines"])

    def test_the_map_names_each_module(self) -> None:
        self.assertEqual(self.faults(link=""), [])
        modules = rooms.read_modules(self.folder / "geesefuton")
        self.assertEqual(rooms.not_in_map(modules, "the `link.py`"), [])
        self.assertRegex(rooms.not_in_map(modules, "link.py")[0], "link.py:1: .* not name it")


class Types(unittest.TestCase):
    def test_each_tree_has_a_cache_of_its_own(self) -> None:
        caches = [tree.cache_of(Path(name).absolute()) for name in ("one", "two", "one")]
        self.assertNotEqual(caches[0], caches[1])
        self.assertEqual(caches[0], caches[2])
