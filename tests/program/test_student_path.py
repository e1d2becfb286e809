"""The commands of docs/PROTOCOL.md, "A record of a link", as a student types them.

The lines are those of the page's section from `tac make` on, run by bash in a folder with the
clone's `geesefuton` and `examples`, at a free port in place of 7000.
"""

import re
import subprocess
import unittest
from pathlib import Path
from typing import List, Tuple

from geesefuton import program
from geesefuton.processes import Children, free_port
from tests.support.trying import MOST, TOP, needs_program

SECTION = "\n## A record of a link\n"


def lines_of_page() -> List[str]:
    """The lines that the page has typed."""
    part = (TOP / "docs" / "PROTOCOL.md").read_text().partition(SECTION)[2].split("\n## ")[0]
    block, = [block for block in re.findall(r"(?m)(?:^    .*\n)+", part) if "tac make" in block]
    port = str(free_port())
    return [line[4:].replace("7000", port) for line in block.splitlines()]


@needs_program
class StudentPath(unittest.TestCase):
    def setUp(self) -> None:
        self.children = Children()
        self.addCleanup(self.children.close)
        self.folder = self.children.folder("student")
        (self.folder / "tac").symlink_to(program.find())
        for name in ("geesefuton", "examples"):
            (self.folder / name).symlink_to(TOP / name)

    def typed(self, lines: List[str]) -> Tuple[int, str]:
        """The status of bash, which stops at the first line that fails, and the last line that is
        written."""
        written = self.folder / "written"
        text = "\n".join([f"cd '{self.folder}'", f"PATH='{self.folder}':$PATH", *lines])
        with written.open("wb") as out, (self.folder / "told").open("wb") as told:
            status = self.children.start(["bash", "-ec", text], stdin=subprocess.DEVNULL,
                                         stdout=out, stderr=told).wait(MOST)
        return status, (written.read_text().splitlines() or [""])[-1]

    def test_the_lines_end_with_a_vouched_record_and_a_changed_byte_is_found(self) -> None:
        lines = lines_of_page()
        status, last = self.typed(lines)
        self.assertEqual(status, 0, (self.folder / "told").read_text()[-300:])
        self.assertRegex(last, "^vouched 0 whole [1-9][0-9]*$")
        said = Path(self.folder, "mine", "seat0.said")
        data = said.read_bytes()
        said.write_bytes(data[:-2] + b"x" + data[-1:])
        self.assertEqual(self.typed(lines[-1:])[0], program.UNSOUND)
