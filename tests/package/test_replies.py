"""Requests and replies in both forms: as they are read and written, and as the lobby takes them."""

import unittest
from typing import Optional

from geesefuton.records import replies
from geesefuton.records.dialects import (CASH, Asked, asked_by, is_bye, is_refusal, position_of,
                                         reply_of, said_in, words_for)
from geesefuton.records.games import GOODS
from geesefuton.records.replies import (Below, Bye, Cash, Done, No, Own, Quote, ReplyError, Request,
                                        Sold, Taken)

# A reply, its line of words, and its JSON.
FORMS = [
    (Taken(7, 1, 0), "@7 taken 1 0", '{"at":7,"taken":[1,0]}'),
    (Taken(0, 2, 3), "@0 taken 2 3", '{"at":0,"taken":[2,3]}'),
    (Done(9), "@9 done", '{"at":9,"done":true}'),
    (Sold(60, 16, 250), "@60 sold 16 250", '{"at":60,"sold":[16,250]}'),
    (Own(8, 1, ((1, 70), (-2, 65))), "@8 own 1 ((1 70) (-2 65))",
     '{"at":8,"own":1,"points":[[1,70],[-2,65]]}'),
    (Own(8, -3, ()), "@8 own -3 ()", '{"at":8,"own":-3,"points":[]}'),
    (Cash(31, -660), "@31 cash -660", '{"at":31,"cash":-660}'),
    (Quote(9, 70, 0, False), "@9 quote 70 0 open", '{"at":9,"quote":[70,0],"open":true}'),
    (Quote(9, 0, 80, True), "@9 quote 0 80 closed", '{"at":9,"quote":[0,80],"open":false}'),
    *((No(3, reason), f"@3 no {reason}", f'{{"at":3,"no":"{reason}"}}')
      for reason in ("closed", "wrongcall", "nobid", "sell", "selfcross")),
    (No(3, "belowquote", 0, Below(3, 101, 2)), "@3 no belowquote 3 101 2",
     '{"at":3,"no":"belowquote","need":3,"price":101,"offered":2}'),
    *((No(None, reason), f"no {reason}", f'{{"no":"{reason}"}}')
      for reason in ("spent", "syntax", "auction", "toolong", "memory")),
    (No(None, "bid", 4), "no bid 4", '{"no":"bid","fault":4}'),
    (Bye(), "bye", '{"bye":true}'),
]


class Replies(unittest.TestCase):
    def test_both_forms_are_read_and_written_with_keys_in_the_order_of_the_page(self) -> None:
        for reply, words, text in FORMS:
            self.assertEqual((replies.read_words(words), replies.words_of(reply)), (reply, words))
            self.assertEqual((replies.read_json(text), replies.reply_json(reply)), (reply, text))
            self.assertEqual((said_in(words.encode(), "words"), said_in(words.encode(), "json")),
                             (words.encode(), text.encode()))
            # What the lobby tells from it.
            for line in (words.encode(), text.encode()):
                self.assertEqual((is_refusal(line), is_bye(line)),
                                 (line.startswith((b"no ", b'{"no"')), isinstance(reply, Bye)))
            self.assertEqual(position_of(words), int(words[1:].split()[0])
                             if words[0] == "@" else None)
            for line, form in ((words, "json"), (text, "words")):  # each form is that of its game
                self.assertRaises(ReplyError, reply_of, line, form)
        self.assertFalse(is_bye(b""))

    def test_a_reply_of_an_entry_has_no_position(self) -> None:
        self.assertEqual(replies.read_entry_reply("own 2 ((1 5))"), Own(None, 2, ((1, 5),)))
        self.assertEqual(replies.read_entry_reply("done", 4), Done(4))
        self.assertEqual(replies.words_of(Done(None)), "done")
        self.assertEqual(replies.read_entry_reply("quote 70 0 open"), Quote(0, 70, 0, False))
        self.assertEqual(replies.entry_words(Quote(9, 70, 0, False)), "quote 70 0 open")
        for text in ("@1 done", "bye", "no syntax", "no bid 4", "done ", ""):
            with self.assertRaises(ReplyError, msg=text):
                replies.read_entry_reply(text)

    def test_the_greatest_numbers(self) -> None:
        self.assertEqual(replies.read_words("@1 cash -123456789012345678"),
                         Cash(1, -123456789012345678))
        self.assertEqual(replies.read_words("@9999999999 done"), Done(9999999999))

    def test_other_words_are_refused(self) -> None:
        for line in ("", "taken 1 0", "@1 taken 1", "@01 done", "@1  done", "@1 done ", "@1 no",
                     "@1 no syntax", "no closed", "no bid 0", "no bid 6", "@1 quote 1 2 shut",
                     "@1 own 1 (1 70)", "@1 cash +5", "@1 cash -0", "bye ", "Bye", "@1 bye",
                     "@1 sold -1 5", "@1 own 1 ((1 70)(1 65))", "no syntaxes", "the no syntax",
                     "no bid 12", "to @1 done", "@1 done @2", "@-1 done", "@12345678901 done",
                     "@1 cash 1234567890123456789", "@1 own 1 ((1 -70))", "@1 done\n", "no spent\n",
                     "@1 no belowquote 3 101", "@1 spent", "no"):
            with self.assertRaises(ReplyError, msg=line):
                replies.read_words(line)

    def test_other_json_is_refused(self) -> None:
        for line in ("", "{", "[]", "{}", '{"at":1}', '{"at":1,"taken":[1]}', '{"taken":[1,0]}',
                     '{"at":1.5,"done":true}', '{"at":1,"done":true,"more":1}', '{"no":"closed"}',
                     '{"at":1,"no":"syntax"}', '{"at":true,"done":true}', '{"no":"bid"}',
                     '{"at":1,"quote":[1,2],"open":1}', '{"at":1,"own":1,"points":[[1]]}',
                     '{"at":1,"no":"belowquote","need":3}', '{"at":1,"cash":"5"}', '7', 'null',
                     '"bye"', '["bye"]', '{"at":1,"taken":7}', '{"at":1,"taken":"10"}',
                     '{"at":1,"taken":{"0":1,"1":0}}', '{"at":1,"taken":[1,true]}',
                     '{"at":1,"own":1,"points":7}', '{"at":1,"own":1,"points":{"1":5}}',
                     '{"at":1,"quote":[1,2,3],"open":true}', '{"at":1,"sold":[1]}', '{"no":7}',
                     '{"at":3,"no":["closed"]}', '{"at":3,"no":"closed","need":1}',
                     '{"at":3,"no":"full"}', '{"no":"full"}', '{"no":"spent","fault":1}',
                     '{"no":"belowquote","need":3,"price":101,"offered":2}',
                     '{"at":3,"no":"full","need":3,"price":101,"offered":2}',
                     '{"at":3,"no":"belowquote","need":3,"price":"101","offered":2}',
                     '{"at":3,"no":"bid","fault":4}', '{"no":"full","fault":4}',
                     '{"no":"bid","fault":4,"more":1}', '{"no":"bid","fault":true}',
                     '{"bye":true,"at":1}', '{"done":true}'):
            with self.assertRaises(ReplyError, msg=line):
                replies.read_json(line)


class Requests(unittest.TestCase):
    FORMS = [
        (Request("bid", 24, ((2, 70), (-1, 65))), "bid 24 ((2 70) (-1 65))",
         '{"do":"bid","auction":24,"points":[[2,70],[-1,65]]}'),
        (Request("withdraw", 16), "withdraw 16", '{"do":"withdraw","auction":16}'),
        (Request("own", 0), "own 0", '{"do":"own","auction":0}'),
        (Request("quote", 27), "quote 27", '{"do":"quote","auction":27}'),
        (Request("cash"), "cash", '{"do":"cash"}'),
        (Request("quit"), "quit", '{"do":"quit"}'),
    ]

    def test_both_forms(self) -> None:
        for request, words, text in self.FORMS:
            self.assertEqual(replies.request_words(request), words)
            self.assertEqual(replies.request_json(request), text)
            self.assertEqual(replies.read_request(words), request)
            self.assertEqual(words_for(text.encode(), "json"), words.encode())

    def test_a_bid_of_no_points(self) -> None:
        self.assertEqual(replies.read_request("bid 5 ()"), Request("bid", 5, ()))
        self.assertEqual(replies.request_words(Request("bid", 5)), "bid 5 ()")
        self.assertEqual(replies.request_json(Request("bid", 5)),
                         '{"do":"bid","auction":5,"points":[]}')

    def test_lines_of_no_form_ask_nothing(self) -> None:
        for line in ("", "buy 5", "own", "own 05", "cash ", "bid 5", "bid 5 (1 2)", "quote 1 2",
                     " cash", "cash\n", "cash 5", "withdraw 5 ()", "own -1", "bid 5 ((1 2)) ",
                     "bid 5 ((1 -2))", "Own 5", "quit5", "own 12345678901"):
            self.assertIsNone(replies.read_request(line))


class Asking(unittest.TestCase):
    """JSON lines and the lines of words that are answered as they are; docs/PROTOCOL.md, "The same
    in JSON", has the rules."""

    def check(self, line: str, words: str) -> None:
        with self.subTest(line=line):
            self.assertEqual(words_for(line.encode("latin-1"), "json"), words.encode())

    def test_words_stay_as_they_are(self) -> None:
        for line in (b"own 3", b"", b"hey \xff\r"):
            self.assertEqual(words_for(line, "words"), line)

    def test_other_texts_of_requests_and_auctions_that_are_none(self) -> None:
        self.check('\t{ "auction" : 27 , "do" : "own" } \r', "own 27")
        self.check('{"do":"own","do":"quote","auction":3}', "quote 3")
        self.check('{"d\\u006f":"cash"}', "cash")
        self.check('{"do":"own","auction":28}', "own 28")
        self.check('{"do":"bid","auction":99999,"points":7}', "bid 99999 x")
        self.check('{"do":"bid","auction":0,"points":7}', "bid 0 x")

    def test_points_that_are_none(self) -> None:
        for points in ('7', '[7]', '[[1]]', '[[1,2,3]]', '[[1,-5]]', '[[1.0,2]]', '[[-0,2]]',
                       '[[1,1e1]]', '[["1",2]]', '[[100000,2]]', '[[1,2],null]', '[[true,2]]',
                       '[[1,-1]]', '[[-100000,2]]', '[[1,100000]]', '[[1,true]]', 'null', '{}',
                       '[[1,123456789012345678901234567890]]'):
            self.check(f'{{"do":"bid","auction":5,"points":{points}}}', "bid 5 x")
        self.check('{"do":"bid","auction":5,"points":[]}', "bid 5 ()")
        self.check('{"do":"bid","auction":5,"points":[[0,0],[-99999,99999]]}',
                   "bid 5 ((0 0) (-99999 99999))")

    def test_what_has_no_form(self) -> None:
        deep = "[" * 126 + "]" * 126
        for line in ("", "own 3", "[]", "7", '"cash"', "{}", '{"do":"cash"', '{"do":"cash"}}',
                     '{"do":"cash","auction":3}', '{"do":"own"}', '{"do":"own","auction":"3"}',
                     '{"do":"own","auction":-1}', '{"do":"own","auction":100000}',
                     '{"do":"own","auction":3.0}', '{"do":"own","auction":-0}', '{"do":["own"]}',
                     '{"do":"own","auction":3,"points":[[1,2]]}', '{"do":"Own","auction":3}',
                     '{"do":"bid","auction":5}', '{"do":"bid","points":[[1,2]]}',
                     '{"do":"bid","auction":"x","points":[[1,2]]}', '{"do":"sell","auction":5}',
                     '{"do":"bid","auction":-1,"points":7}', '{"do":"bid","auction":5,"point":7}',
                     '{"do":"bid","auction":5,"points":[],"x":1}', '{"do":"cash","points":[]}',
                     '{"do":"cash","do":NaN}', '{"do":Infinity,"do":"cash"}', '{"do":"\xff"}',
                     '{"do":1e400,"do":"cash"}', '{"do":%s,"do":"cash"}' % ("9" * 400),
                     '{"do":"\\ud800","do":"cash"}', '{"do":"\\udc00\\ud800","do":"cash"}',
                     '{"do":[%s],"do":"cash"}' % deep, "\xef\xbb\xbf" + '{"do":"cash"}',
                     '{"do":"bid","auction":5,"points":[[1,1e400]]}', '{"do":"ca\tsh"}'):
            self.check(line, "")
        self.check('{"do":"\\ud83d\\udE00 \\\\ud800","do":"cash"}', "cash")  # a whole pair
        self.check('{"do":%s,"do":"cash"}' % deep, "cash")
        self.check('{"do":"%s","do":"cash"}' % ("[" * 200), "cash")

    def test_only_what_is_open_at_once_counts_as_nested(self) -> None:
        wide = "[]," * 130
        self.check('{"do":[%s0],"do":"cash"}' % wide, "cash")
        self.check('{"do":[[],[],%s],"do":"cash"}' % ("[" * 126 + "]" * 126), "")
        self.check('{"do":"\\"%s","do":"cash"}' % ("[" * 200), "cash")


class Positions(unittest.TestCase):
    """What a line asks that the server gives a position."""

    def check(self, line: str, form: str, due: Optional[Asked]) -> None:
        with self.subTest(line=line[:60], form=form):
            self.assertEqual(asked_by(line, form), due)

    def test_the_limits_of_a_bid(self) -> None:
        for points, is_bid in (("((1 1))", True), ("((1 10000))", True), ("((1 10001))", False),
                               ("((16 5))", True), ("((-16 5))", True), ("((-17 5))", False),
                               (f"({' '.join(['(1 5)'] * 16)})", True),
                               ("((1 5) (1 0))", False), ("((1 0) (1 5))", False),
                               ("((1 5) (0 5))", False)):
            line = f"bid 0 {points}"
            self.check(line, "words", Asked("bid", 0, line) if is_bid else None)

    def test_the_last_auction_and_the_cash_book_are_told_apart(self) -> None:
        self.assertNotIn(CASH, GOODS)
        self.check("own 27", "words", Asked("own", 27, "own 27"))
        self.check("bid 28 ((1 5))", "words", None)
        self.check("quote 28", "words", None)
        self.check('{"do":"cash"}', "json", Asked("cash", CASH, "cash"))

    def test_a_line_has_at_most_512_bytes(self) -> None:
        line = '{"do":"own","auction":3}'
        self.check(line + " " * (512 - len(line)), "json", Asked("own", 3, "own 3"))
        self.check(line + " " * (513 - len(line)), "json", None)

    def test_each_form_is_that_of_its_game_alone(self) -> None:
        self.check("own 3", "json", None)
        self.check('{"do":"own","auction":3}', "words", None)
