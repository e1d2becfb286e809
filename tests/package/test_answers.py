import unittest
from typing import List, Optional, Tuple

from geesefuton.playing.answers import answer_of, asked_in_words, fault_of
from geesefuton.records.replies import Done, Own, Points, Request, Taken, read_words


def refusal(line: str, request: Request) -> str:
    """The sentence of a refusal."""
    answer = answer_of(request, read_words(line), None)
    assert not answer.is_done
    return answer.text


class Answers(unittest.TestCase):
    def test_what_was_traded_at_once_and_what_stands(self) -> None:
        rows = [
            (0, Taken(0, 2, 0), Own(1, 2, ()), "Bought 2 at once."),
            (0, Taken(0, 0, 0), Own(1, 0, ((1, 200),)), "Your bid stands: buy 1 at 200."),
            (20, Taken(0, 1, 1), Own(1, 0, ((-1, 90),)),
             "Bought 1 at once; sold 1 at once; your bid stands: sell 1 at 90."),
            (8, Taken(0, 0, 0), None, "It is decided at the closing."),
            (20, Taken(0, 0, 0), None, "It was admitted."),
            (20, Done(0), None, "Withdrawn: nothing of yours stands there now."),
        ]
        for good, reply, own, text in rows:
            answer = answer_of(Request("bid", good, ((1, 200),)), reply, own)
            self.assertEqual((answer.is_done, answer.text), (True, text))

    def test_too_low_for_a_hotel(self) -> None:
        bid = Request("bid", 8, ((2, 100),))
        for line, text, fix in (
                ("@3 no belowquote 3 101 2", "Too low: a new bid has to offer 3 rooms at 101 "
                 "dollars or more, since you would win 3 now; yours offers only 2 at that price.",
                 (3, 101)),
                ("@3 no belowquote 1 101 0", "Too low: a new bid has to offer 1 room at 101 "
                 "dollars or more; yours offers none at that price.", (1, 101)),
                ("@3 no belowquote 1 10001 0", "no bid can beat it", None),
                ("@3 no closed", "closed", None)):
            self.assertIn(text, refusal(line, bid))
            self.assertEqual(answer_of(bid, read_words(line), None).fix, fix)

    def test_each_refusal_has_a_sentence_of_its_own(self) -> None:
        bid = Request("bid", 20, ((1, 90), (-1, 80), (-2, 70)))
        lines = ["@3 no closed", "@3 no wrongcall", "@3 no nobid", "@3 no sell",
                 "@3 no selfcross", "no spent", "no bid 1", "no bid 2", "no bid 3", "no bid 4",
                 "no bid 5", "no syntax"]
        told = [refusal(line, bid) for line in lines]
        self.assertEqual(len(set(told)), len(lines))
        self.assertEqual(told[0], "Amusement park, night 1 is closed: you cannot bid or "
                                  "withdraw there any more.")
        self.assertIn("below 70 dollars", told[4])

    def test_an_answer_to_something_else(self) -> None:
        self.assertFalse(answer_of(Request("bid", 0), read_words("bye"), None).is_done)

    def test_what_was_asked_in_words(self) -> None:
        self.assertEqual(asked_in_words(Request("bid", 5, ((2, 300), (1, 250)))),
                         "Flights out, day 3: buy 2 at 300, buy 1 at 250")
        self.assertEqual(asked_in_words(Request("withdraw", 27)), "Museum, night 4: withdraw")

    def test_points_that_cannot_be_written(self) -> None:
        rows: List[Tuple[Points, Optional[str]]] = [
            ((), "A bid must be for at least 1 unit."),
            (((1, 99999),), None), (((-99999, 0),), None),
            (((1, 100000),), "whole numbers"), (((100000, 1),), "whole numbers"),
            (((1, -1),), "whole numbers")]
        for points, due in rows:
            told = fault_of(points)
            self.assertEqual(told is None, due is None, points)
            self.assertIn(due or "", told or "")
