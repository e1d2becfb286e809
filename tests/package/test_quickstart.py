"""The first game that somebody plays, with stand-ins for the program and the agents."""

import os
import sys
from typing import Callable, List, Tuple
from unittest import mock

from geesefuton import program, quickstart
from geesefuton.processes import Children, Output
from geesefuton.records.logs import Score
from geesefuton.records.secret_deals import BYTES, deal_seed
from tests.package.cases import Case, fake_program
from tests.package.helpers import SERVED_LOG

# It takes eight links, keeps what each said first, and writes a log.
SERVER = """
import socket, sys
port, heard, log = int(sys.argv[1]), sys.argv[2], sys.argv[3]
listener = socket.create_server(("127.0.0.1", port))
links = [listener.accept()[0] for _ in range(8)]
words = sorted(link.makefile("rb").readline().decode() for link in links)
open(heard, "w").write("".join(words))
sys.stdout.write(open(log).read())
"""
SECRET = bytes(range(BYTES))
AGENT = """
import os, socket, sys
try:
    link = socket.create_connection((sys.argv[1], int(sys.argv[2])))
    link.sendall(f"hello {' '.join([*sys.argv[3:], os.path.basename(sys.argv[0])])}\\n".encode())
    link.recv(1)
except OSError:
    pass  # the server has ended
"""


class Playing(Case):
    def setUp(self) -> None:
        super().setUp()
        for name in ("planner", "trader", "watcher"):
            self.write(f"agents/{name}.py", AGENT)
        self.told: List[str] = []
        for name, what in (
                ("program.examples", lambda: self.folder), ("quickstart.tell", self.told.append),
                ("quickstart.wait_until", self.waited),
                ("quickstart.PAGE", self.folder / "page.html"),
                ("quickstart.new_secret", lambda: SECRET)):
            self.patch(name, what)

    def play(self, serve: str) -> Tuple[int, str, List[str]]:
        """The status, what is written, and what is told, with a server that does this."""
        self.tac = self.use_program(
            f'echo "$@" >> {self.folder}/asked\n'
            f'case "$1" in make|audit) echo sound; exit; esac\n{serve}')
        file = self.folder / "written"
        with Children() as children:
            out = Output(file)
            status = quickstart.play(children, out)
            out.close()
        return status, file.read_text(), self.told

    def waited(self, is_over: Callable[[], bool], what: str) -> None:
        """Waits until something is over, which is not told."""
        self.assertTrue(what.startswith("quickstart: "))
        self.until(is_over)

    def served(self) -> str:
        """What a program does that serves the game of the kept log."""
        server = self.write("server.py", SERVER)
        return f'exec {sys.executable} {server} "$3" {self.folder}/heard {SERVED_LOG}'

    def test_who_won_is_said_and_a_page_is_written(self) -> None:
        status, written, told = self.play(self.served())
        self.assertEqual((status, told), (0, []))
        lines, seed = written.splitlines(), deal_seed(SECRET, 1)
        self.assertEqual(lines[:3], [
            "The planner in seat 0 won with 507 dollars, 213 more than the watcher in seat 7.",
            "    507  the planner in seat 0", "    294  the watcher in seat 7"])
        self.assertEqual(lines[8:], [
            "   -726  the planner in seat 1", f"The server was the program {self.tac}.",
            f"The game is that of `{program.typed(f'tac make {seed}')}`.",
            "A page with all prices, trades and trips, for a browser:",
            str(self.folder / "page.html")])
        page = (self.folder / "page.html").read_text()
        self.assertIn("<b>watcher 7</b>", page)
        self.assertNotIn('class="warning"', page)
        names = ["planner.py"] * 4 + ["trader.py"] * 3 + ["watcher.py"]
        self.assertEqual((self.folder / "heard").read_text(), "".join(
            f"hello seat{seat} --pause 0.1 {name}\n" for seat, name in enumerate(names)))
        made, served, audited = (self.folder / "asked").read_text().splitlines()
        self.assertEqual((made, served.split()[0], served.split()[3:], audited.split()[0]),
                         (f"make {seed}", "serve", [str(quickstart.PACE)], "audit"))

    def test_a_quick_run_says_that_it_proves_nothing(self) -> None:
        clone = self.folder / "clone"
        (clone / "crates" / "tacd").mkdir(parents=True)
        os.rename(fake_program(self.folder, self.served().replace("$3", "$7")), self.folder / "rt")
        path = f"{self.folder}{os.pathsep}{os.environ['PATH']}"
        with mock.patch.object(program, "to_build", return_value=clone), \
                mock.patch.dict(os.environ, {"PATH": path}):
            status, written, told = self.play("exit 9")
        self.assertEqual((status, told), (0, []))
        self.assertIn(f"nothing: `{program.typed('tac make 42')}` builds the proved program.\n",
                      written)
        self.assertIn("Its log is not audited.", (self.folder / "page.html").read_text())

    def test_a_page_that_cannot_be_written(self) -> None:
        (self.folder / "page.html").mkdir()
        status, written, told = self.play(self.served())
        self.assertEqual((status, told), (1, [f"quickstart: {self.folder / 'page.html'}: Is a "
                                              "directory"]))
        self.assertIn(" won with ", written)

    def test_agents_that_share_the_first_place(self) -> None:
        scores = [Score(agent, 0, 0, 0, 10 * (agent < 2), ()) for agent in range(8)]
        self.assertEqual(quickstart.standings(scores)[0], "The planner in seat 0 and the planner "
                         "in seat 1 are ahead with 10 dollars each.")

    def test_a_program_of_another_system(self) -> None:
        file = self.folder / "other"
        file.write_bytes(b"\x7fELF\x02\x01\x01" + bytes(57))
        file.chmod(0o755)
        self.set(TAC=str(file))
        with Children() as children, \
                self.assertRaisesRegex(program.ProgramError, "not a program for this system"):
            quickstart.play(children, Output(self.folder / "written"))

    def test_a_server_that_fails_is_told_with_what_it_said(self) -> None:
        status, written, told = self.play("echo fault links; exit 5")
        self.assertEqual((status, written), (1, ""))
        self.assertEqual(told, ["fault links\nquickstart: the server ended with exit status 5, so "
                                "there are no scores"])
