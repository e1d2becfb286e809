"""One game by the real program, through all that hosts and shows it: the lobby, an agent that
reconnects, the journal, the bytes of the links, the page, the recovery and the report."""

import json
import subprocess
import threading
import time
import urllib.request
from dataclasses import dataclass, field
from typing import Any, Dict, List
from unittest import mock

from geesefuton import program
from geesefuton.hosting.journal import read_journal
from geesefuton.hosting.server_links import server_links
from geesefuton.link import Link
from geesefuton.processes import Children
from geesefuton.records.games import FLIGHTS, HOTELS, TICKETS, read_game
from geesefuton.records.logs import Log, read_log
from tests.package.cases import MOST, FolderCase, is_listening
from tests.package.helpers import COMMAND, completed, needs_program
from tests.package.journals import parts_of
from tests.support import vouching as reading
from tests.support.soaking import Hosted

WORDS = ["red7k", "orange3x", "yellow9m", "green4", "blue77", "violet5", "brown8q", "grey0"]
NAMES = ["red", "orange", "yellow", "green", "blue", "violet", "brown", "grey"]
PACE = 150  # milliseconds a tick, so that the game takes some eight seconds
PAUSE = 0.03  # seconds between an agent's requests


@dataclass
class Agent:
    """An agent that bids for all kinds of goods.

    Attributes:
        word: Its seat word.
        port: Where it connects.
        gap: After how many requests it loses its link, and reconnects; 0 is never.
        count: How many requests it has made.
        wishes: Its clients, as each welcome told them.
    """

    word: str
    port: int
    gap: int = 0
    count: int = 0
    wishes: List[Any] = field(default_factory=list)

    def play(self) -> None:
        link = self.greet()
        while not link.quote(TICKETS[-1]).closed:
            for line in self.lines():
                if self.gap and self.count == self.gap:
                    link.close()
                    link = self.greet()
                link.ask(line)
                self.count += 1
                time.sleep(PAUSE)
        link.quit()
        link.close()

    def greet(self) -> Link:
        link = Link.greet("127.0.0.1", self.port, self.word)
        self.wishes.append((link.agent, link.endow, link.clients))
        return link

    def lines(self) -> List[str]:
        count = self.count
        flight, hotel = FLIGHTS[count % 8], HOTELS[count // 4 % 8]
        ticket, agent = TICKETS[count // 3 % 12], WORDS.index(self.word)
        side = "(-1 60)" if (agent + count) % 2 else "(1 90)"
        return [f"bid {hotel} ((1 {40 + 3 * count + agent}) (1 {20 + count}))",
                f"bid {ticket} ({side})", f"bid {flight} ((1 400))", f"own {hotel}", "cash"]


@needs_program
class WholeGame(FolderCase):
    def setUp(self) -> None:
        super().setUp()
        self.hosted = Hosted(self.enter(Children()), self.folder, 7)
        self.game, self.log, self.journal = (self.hosted.file, self.hosted.log, self.hosted.journal)
        self.game.write_text(read_game(self.game.read_text()).named(WORDS).text())
        self.mine = self.folder / "mine"

    def test_a_game_from_its_first_link_to_its_report(self) -> None:
        agents = [Agent(word, self.hosted.port) for word in WORDS[:6]]
        agents[2].gap = 25
        with mock.patch.dict("os.environ", {"AGENT_RECORD": str(self.mine)}):
            states = self.host(agents)
        log = read_log(self.log.read_bytes())
        self.assertEqual(program.audit(self.game, self.log), "sound")
        self.assertGreater(min(agent.count for agent in agents), 25)
        self.assertGreater(sum(map(log.calls_of, range(6))), 100)
        self.assertTrue(any(entry.trades for good in TICKETS for entry in log.histories[good]))
        self.assertEqual([len(agent.wishes) for agent in agents], [1, 1, 2, 1, 1, 1])
        self.assertEqual(agents[2].wishes[0], agents[2].wishes[1])
        self.check_journal()
        self.check_links(log)
        self.check_vouching()
        self.check_states(states, log)
        self.check_recovery()
        self.check_report(log)

    def host(self, agents: List[Agent]) -> List[Dict[str, Any]]:
        """Plays the game, and gives the states that its page showed."""
        lobby = self.hosted.start(PACE, "--page", self.hosted.page, "--after", 5,
                                  stdin=subprocess.PIPE)
        assert lobby.stdin is not None
        with lobby.stdin:
            self.until(lambda: is_listening(self.hosted.page))
            states = [self.state()]
            threads = [threading.Thread(target=agent.play, daemon=True) for agent in agents]
            for thread in threads:
                thread.start()
            self.until(lambda: [agent["here"] for agent in self.state()["agents"]].count("here")
                       == len(agents))
            lobby.stdin.write(b"\n")  # begin without those who are missing
            lobby.stdin.flush()
            with self.opened("events") as stream:  # which ends with the game
                states += [json.loads(line[6:]) for line in stream if line.startswith(b"data: {")]
            for thread in threads:
                thread.join(MOST)
            self.assertIn(lobby.wait(MOST), (program.OK, program.CLOCK))
        return states

    def state(self) -> Dict[str, Any]:
        with self.opened("state") as got:
            state: Dict[str, Any] = json.loads(got.read())
            return state

    def opened(self, name: str) -> Any:
        return urllib.request.urlopen(f"http://127.0.0.1:{self.hosted.page}/{name}", timeout=MOST)

    # What each part has of the game.

    def check_journal(self) -> None:
        reader = read_journal(self.journal)
        self.assertEqual((reader.tick, reader.pending()), (54, []))
        self.assertIn(reader.status, (program.OK, program.CLOCK))
        self.assertEqual([agent.end for agent in reader.agents], ["left"] * 6 + ["absent"] * 2)

    def check_links(self, log: Log) -> None:
        """Whether the log is right about the links of the lobby to its server, and about those of
        the agents, as they have kept them."""
        boards = reading.Boards(read_game(self.game.read_text()), log)
        links = server_links(self.journal)
        self.assertEqual([reading.vouching(boards, *link) for link in links],
                         [f"vouched {seat} whole {link.asked.count(bytes([10])) - 1}"
                          for seat, link in enumerate(links)])
        self.assertEqual([link.asked.count(bytes([10])) for link in links[6:]], [1, 1])
        for seat in (0, 1, 3, 4, 5):
            kept = [(self.mine / f"{WORDS[seat]}.{side}").read_bytes()
                    for side in ("asked", "said")]
            self.assertEqual(kept, list(links[seat]))
        # Together the two links of the agent that reconnected are that of the lobby.
        for side, whole, rest in zip(("asked", "said"), links[2], (1, 10)):
            first, second = ((self.mine / f"{WORDS[2]}{number}.{side}").read_bytes()
                             for number in ("", ".2"))
            self.assertEqual(first + b"".join(second.splitlines(True)[rest:]), whole)

    def check_vouching(self) -> None:
        """Whether the lobby has said that it is vouched for, and the command says so too: of its
        links, and of the agents' records, two of which are joined."""
        self.assertRegex(self.hosted.told().splitlines()[-1], "; vouched 8 of 8;")
        published = self.folder / "published"
        told = self.run_tool("vouch", self.game, self.log, "--journal", self.journal, "--publish",
                             published).splitlines()
        self.assertEqual(told[-1], "vouched: 8 of 8")
        lines = [f"{line}, 2 records" if line.startswith(f"{WORDS[2]}: ") else line
                 for line in told[:6]]
        for words in (["--journal", self.journal], ["--published", published]):
            mine = self.run_tool("vouch", self.game, self.log, self.mine, *words).splitlines()
            self.assertEqual((sorted(mine[:-1]), mine[-1]), (sorted(lines), "vouched: 6 of 6"))

    def check_states(self, states: List[Dict[str, Any]], log: Log) -> None:
        phases = [state["phase"] for state in states]
        self.assertEqual((phases[0], phases[-1]), ("waiting", "over"))
        self.assertGreater(len({state["tick"] for state in states}), 5)
        self.assertFalse(any(state["stalled"] for state in states))
        last = states[-1]
        self.assertEqual([agent["name"] for agent in last["agents"]], NAMES)
        self.assertEqual([agent["score"] for agent in last["agents"]],
                         [[row.best, row.cash, row.short, row.score] for row in log.scores])
        text = json.dumps(states)
        self.assertFalse([word for word in WORDS if word in text])

    def check_recovery(self) -> None:
        self.assertEqual(parts_of(self.run_tool("recover", self.journal)),
                         parts_of(self.log.read_text()))

    def check_report(self, log: Log) -> None:
        page = self.run_tool("report", self.game, self.log)
        self.assertFalse([word for word in WORDS if word in page])
        for name, row in zip(NAMES, log.scores):
            said = f"trips worth {row.best:,}, cash {row.cash:,}, score {row.score:,}"
            self.assertIn(f"<b>{name}</b>: {said.replace('-', '−')}", page)

    def run_tool(self, name: str, *words: object) -> str:
        done = completed(*COMMAND, name, *words)
        self.assertEqual(done.returncode, 0, done.stderr)
        return str(done.stdout)
