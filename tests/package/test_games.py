import unittest
from typing import List

from geesefuton.records import games
from geesefuton.records.games import Client, Flight, Game, GameError, Package, read_game
from tests.package.helpers import TOP


def text_of(name: str) -> str:
    return (TOP / "examples" / name).read_text()


def canonical(text: str) -> str:
    return "".join(line + "\n" for line in text.splitlines() if line and line[0] != "#")


FIRST, FEW = text_of("first.game"), text_of("few_rooms.game")


class Texts(unittest.TestCase):
    def test_a_game_of_each_version_is_read_and_written(self) -> None:
        minute = read_game(FIRST).with_rooms([3] * 8, live=False).text()
        for text, version in ((FIRST, 1), (FEW, 2), (minute, 2)):
            game = read_game(text)
            self.assertEqual((game.version, game.text()), (version, canonical(text)))
            self.assertEqual(read_game(game.text()), game)
        self.assertTrue(minute.startswith("tac 2\n"))
        self.assertIn("\nrooms 3 3 3 3 3 3 3 3\nquotes minute\n", minute)

    def test_the_parts_of_a_game(self) -> None:
        game = read_game(FEW)
        self.assertEqual((game.words, game.rooms, game.live), (
            tuple(f"seat{seat}" for seat in range(8)), (6, 4, 4, 6, 4, 3, 3, 4), True))
        flight, wants = game.flights[5], game.clients[3][7]
        for begin, due in (("flight 5", (flight.first, flight.bound, *flight.draws)),
                           ("endow 6", game.endow[6]), ("close", game.closing),
                           ("client 3 7", (wants.arrive, wants.depart, wants.premium,
                                           *wants.values))):
            self.assertIn(f"\n{begin} {' '.join(map(str, due))}\n", FEW)
        # Hotels close every six ticks in the order of the file.
        for place, good in enumerate(game.closing, 1):
            self.assertEqual(game.hotels[good - 8].closes, 6 * place)
        self.assertEqual([hotel.rooms for hotel in game.hotels], list(game.rooms))

    def test_version_one_has_sixteen_rooms_and_quotes_by_the_minute_which_is_usual(self) -> None:
        game = read_game(FIRST)
        self.assertEqual((game.rooms, game.live), ((16,) * 8, False))
        self.assertEqual(Game(game.words, game.flights, game.closing, game.endow, game.clients),
                         game)

    def test_the_greatest_game_file(self) -> None:
        text = FIRST + "#" * ((1 << 20) - len(FIRST) - 1) + "\n"
        self.assertEqual(read_game(text), read_game(FIRST))
        self.assertRaises(GameError, read_game, text + "\n")

    def test_names_and_rooms_can_be_changed(self) -> None:
        game = read_game(FIRST)
        words = list("abcdefgh")
        other = game.named(words).with_rooms([1, 2, 3, 4, 5, 6, 7, 8], live=True)
        self.assertEqual(read_game(other.text()), other)
        self.assertIn("\nwords a b c d e f g h\n", other.text())
        self.assertIn("\nrooms 1 2 3 4 5 6 7 8\nquotes live\n", other.text())
        self.assertEqual(other.hotels[3].rooms, 4)
        self.assertEqual((other.clients, other.endow, other.flights, other.closing),
                         (game.clients, game.endow, game.flights, game.closing))


class Faults(unittest.TestCase):
    """Each error names the line that `tac show` names."""

    def refuse(self, text: str, line: int, why: str) -> None:
        with self.assertRaises(GameError) as caught:
            read_game(text)
        self.assertEqual(caught.exception.line, line)
        self.assertIn(why, str(caught.exception))
        self.assertTrue(str(caught.exception).startswith(f"line {line}: "))

    def changed(self, line: int, text: str) -> str:
        lines: List[str] = canonical(FEW).splitlines()
        lines[line - 1] = text
        return "\n".join(lines) + "\n"

    def test_lines_that_are_refused(self) -> None:
        seats, draws = "b c d e f g h", " 0" * 53
        for number, why, *lines in (
                (1, "neither 1 nor 2", "tac 3", "tac 2\r", "tac x"),
                (1, "expected 1 words after `tac`, not 0", "tac"),
                (1, "expected a line `tac`", "game"),
                (2, "is not a seat word", *(f"words {bad} {seats}" for bad in (
                    "Seat", "s" * 17, "a-b", "")), *(f"words {seats} {bad}" for bad in (
                        "Seat", "s" * 17, "a-b", ""))),
                (2, "equal", "words a b c d e f g a"),
                (2, "8 words after `words`, not 7", "words a b c d e f g"),
                (3, "1 is not from 0 to 0", "flight 1 300 0" + draws),
                (3, "from 250 to 400", "flight 0 249 0" + draws, "flight 0 401 0" + draws),
                (3, "from -10 to 30", "flight 0 300 -11" + draws, "flight 0 300 31" + draws),
                (3, "56 words", "flight 0 300 0" + draws[2:]),
                (3, "4294967295", f"flight 0 300 0{draws[2:]} 4294967296"),
                (3, "canonical form", f"flight 0 300 0{draws[2:]} -1", "flight 0 300 -0" + draws),
                (11, "equal", "close 8 9 10 11 12 13 14 14"),
                (11, "from 8 to 15", "close 8 9 10 11 12 13 14 16"),
                (12, "from 1 to 64", "rooms 0 4 4 6 4 3 3 4", "rooms 65 4 4 6 4 3 3 4"),
                (12, "canonical form", *(f"rooms {bad} 4 4 6 4 3 3 4" for bad in (
                    "01", "+1", "-0", "1.0", "", "x", "99999999999", "٣", "-1"))),
                (13, "`minute` or `live`", "quotes hour"),
                (14, "from 0 to 16", "endow 0 17" + " 0" * 11),
                (14, "canonical form", "endow 0 -1" + " 0" * 11),
                (15, "0 is not from 1 to 1", "endow 0" + " 0" * 12),
                (22, "from 1 to 4", "client 0 0 5 5 50 0 0 0", "client 0 0 0 2 50 0 0 0"),
                (22, "from 2 to 5", "client 0 0 1 6 50 0 0 0"),
                (22, "not after the arrival", "client 0 0 2 2 50 0 0 0"),
                (22, "from 50 to 150", "client 0 0 1 2 49 0 0 0", "client 0 0 1 2 151 0 0 0"),
                (22, "from 0 to 200", "client 0 0 1 2 50 0 0 201"),
                (23, "1 is not from 0 to 0", "client 1 1 1 2 50 0 0 0"),
                (23, "0 is not from 1 to 1", "client 0 0 1 2 50 0 0 0")):
            for line in lines:
                with self.subTest(number=number, line=line[:40]):
                    self.refuse(self.changed(number, line), number, why)

    def test_the_least_and_the_greatest_are_taken(self) -> None:
        longest = self.changed(2, f"words {'s' * 16} b c d e f g h")
        self.assertEqual(read_game(longest).words[:2], ("s" * 16, "b"))
        for first, bound, draw in ((250, -10, 4294967295), (400, 30, 0)):
            text = self.changed(3, f"flight 0 {first} {bound}" + f" {draw}" * 53)
            self.assertEqual(read_game(text).flights[0], Flight(first, bound, (draw,) * 53))
        for text in ("client 0 0 1 5 50 0 0 0", "client 0 0 4 5 150 200 200 200"):
            self.assertEqual(read_game(self.changed(22, text)).text().split("\n")[21], text)

    def test_ends(self) -> None:
        whole = canonical(FIRST)
        words = whole.split("\n")[1]
        for text, line, why in (
                (whole + "end\n", 85, "follows `end`"),
                (whole[:-1], 84, "expected a line `end`, but the text ends"),
                (whole + "#", 85, "no line end"),
                (whole.replace("end\n", ""), 84, "the text ends"), ("", 1, "the text ends"),
                ("#" * (1 << 20) + "\n", 1, "1,048,576"),
                # Comments count in line numbers.
                ("# one\n\n" + whole.replace(words, "# two\nwords"), 5, "8 words")):
            self.refuse(text, line, why)


class Rules(unittest.TestCase):
    def test_goods_have_numbers_and_names(self) -> None:
        self.assertEqual([games.inbound(1), games.inbound(4), games.outbound(2), games.outbound(5)],
                         [0, 3, 4, 7])
        self.assertEqual([games.room(0, 1), games.room(1, 4), games.ticket(0, 1),
                          games.ticket(2, 4)], [8, 15, 16, 27])
        groups = (("Flights in", "in, day"), ("Flights out", "out, day"),
                  ("Shoreline Shanties", "Shanties, night"), ("Tampa Towers", "Towers, night"),
                  ("Alligator wrestling", "alligators, night"),
                  ("Amusement park", "park, night"), ("Museum", "museum, night"))
        due = [(group, day, f"{name} {day}") for group, name in groups
               for day in (range(2, 6) if group == "Flights out" else range(1, 5))]
        self.assertEqual(list(games.AUCTIONS), [(number, *each) for number, each in enumerate(due)])
        self.assertEqual([games.name_of(good) for good in games.GOODS], [name for *_, name in due])
        self.assertEqual(
            (games.INBOUND, games.OUTBOUND, games.FLIGHTS, games.HOTELS, games.TICKETS,
             games.GOODS),
            (range(4), range(4, 8), range(8), range(8, 16), range(16, 28), range(28)))
        self.assertEqual((games.TICKS, games.SEATS, games.CLIENTS, games.HOUSE, games.CLOCK),
                         (54, 8, 8, 8, 8))

    def test_there_are_392_trips(self) -> None:
        self.assertEqual(len(games.PACKAGES), 392)
        self.assertEqual(len(set(games.PACKAGES)), 392)
        self.assertEqual(sum(package.hotel == 1 for package in games.PACKAGES), 196)
        for package in games.PACKAGES:
            nights = [night for night in package.nights if night]
            self.assertEqual(len(nights), len(set(nights)))
            self.assertTrue(all(package.arrive <= night < package.depart for night in nights))

    def test_what_a_trip_uses(self) -> None:
        package = Package(1, 2, 4, (0, 3, 2))
        self.assertEqual(sorted(package.goods()), [1, 6, 13, 14, 22, 25])

    def test_what_a_trip_is_worth(self) -> None:
        client = Client(1, 3, 100, (0, 0, 200))
        self.assertEqual(client.worth(Package(1, 2, 3, (0, 0, 2))), 1200)
        self.assertEqual(client.worth(Package(0, 1, 3, (0, 0, 0))), 1000)
        self.assertEqual(client.worth(None), 0)
        early = Client(2, 4, 70, (10, 20, 40))
        for package, worth in (((1, 5), 800), ((3, 5), 800), ((1, 2), 700), ((2, 3), 900),
                               ((4, 5), 700), ((2, 4), 1000), ((2, 5), 900), ((1, 4), 900)):
            self.assertEqual(early.worth(Package(0, *package, (0, 0, 0))), worth, package)
            self.assertEqual(early.worth(Package(1, *package, (0, 0, 0))), worth + 70, package)
        for nights, more in (((2, 0, 0), 10), ((0, 3, 0), 20), ((0, 0, 2), 40), ((3, 0, 2), 50)):
            self.assertEqual(early.worth(Package(0, 2, 4, nights)), 1000 + more)
        self.assertEqual(list(client.nights()), [1, 2])
