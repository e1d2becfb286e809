"""Tests of docs/reading.py: it finds faults that are planted in definitions and pages."""

import sys
from pathlib import Path

from tests.package.cases import Case
from tests.package.helpers import TOP, completed

KINDS = "crates/tac_base/specs/Kinds.antt"


class PlantedFaults(Case):
    """Each test changes a file of a tree that has links to all other files of this one."""

    def setUp(self) -> None:
        super().setUp()
        for name in ("crates", "docs"):
            (self.folder / name).symlink_to(TOP / name)

    def change(self, name: str, old: str, new: str) -> None:
        """Puts `new` in place of `old`, which stands once in a file."""
        place = self.folder
        for part in Path(name).parts:
            place /= part
            if place.is_dir() and place.is_symlink():
                source = place.readlink()
                place.unlink()
                place.mkdir()
                for each in source.iterdir():
                    (place / each.name).symlink_to(each)
        text = place.read_text(encoding="utf-8")
        self.assertEqual(text.count(old), 1)
        place.unlink()
        place.write_text(text.replace(old, new), encoding="utf-8")

    def run_script(self, *words: str) -> str:
        """What the script prints, its exit status in front."""
        done = completed(sys.executable, self.folder / "docs" / "reading.py", *words,
                         encoding="utf-8")
        return f"{done.returncode}\n{done.stdout}"

    def assert_faults(self, *faults: str) -> None:
        """The script tells these faults."""
        printed = self.run_script()
        self.assertEqual(printed[:2], "1\n")
        for fault in faults:
            self.assertIn(fault, printed)

    def test_definitions_are_printed_as_they_stand(self) -> None:
        printed = self.run_script("--print")
        kinds = (TOP / KINDS).read_text(encoding="utf-8")
        definition = kinds[kinds.index("abbrev pub kind_of"):].strip()
        self.assertEqual(printed.count(definition), 1)
        self.assertLess(printed.index("record Entry "), printed.index("pub record IsLegalHistory"))
        self.assertRegex(printed, r"-- Left out: \w")
        self.assertRegex(printed, r"\n-- \d+ lines in \d+ definitions, \d+ of them by type\n\Z")
        self.assertEqual(printed.count("closed_comes_first : run hotel ((8, Close)"), 0)
        stated = self.run_script("--rows")
        self.assertEqual(stated.count("    closed_comes_first : run hotel ((8, Close)"), 1)

    def test_a_definition_without_a_rule(self) -> None:
        kinds = (TOP / KINDS).read_text(encoding="utf-8")
        above = kinds[: kinds.index("abbrev pub kind_of")].rstrip("\n").split("\n")[-1]
        self.assertTrue(above.startswith("-- "))
        self.change(KINDS, above + "\n", "\n")
        self.assert_faults("kind_of of tac_base.specs.Kinds has no rule")

    def test_a_row_and_a_rule_that_do_not_lead_to_their_definition(self) -> None:
        row = "-- Row: museum_trip (worked_rows/proofs/Packages.antt)\n"
        self.change(KINDS, "abbrev pub kind_of", f"{row}abbrev pub kind_of")
        self.change("docs/rules.tsv", "bids:Points::new.fault; tac_base/bids:Points::new.variant",
                    "bids:BidDraft::new")
        self.assert_faults("the row museum_trip does not lead to kind_of",
                           "points and units of a bid: no clause leads to its definition")

    def test_a_definition_above_one_that_it_uses_and_a_table_that_is_old(self) -> None:
        self.change("docs/chapters.tsv", "The cash book\ttrade_ledger\n", "")
        self.change("docs/chapters.tsv", "The headline\t", "The headline\ttrade_ledger ")
        self.change("docs/READING.md", "| the closing |", "| the end |")
        self.assert_faults("uses trade_ledger.specs.CashHistory, which stands below it",
                           "the tables of rules are old")

    def test_places_that_do_not_exist(self) -> None:
        cases = (
            ("Auction::act.legal; floor", "Auction::act.lawful; floor",
             "clause auction_core/auction:Auction::act.lawful"),
            ("bids:Points::new\t", "bids:new\t", "code tac_base/bids:new"),
            ("FORMATS/Bid strings", "FORMATS/Bids", "in words FORMATS/Bids"),
            ("hotel_book/later_bid_first", "hotel_book/later_bid",
             "refused edit hotel_book/later_bid"),
            ("Logs:three_tickets_short", "Logs:two_tickets_short",
             "worked row or test worked_rows/Logs:two_tickets_short"))
        for old, new, _ in cases:
            self.change("docs/rules.tsv", old, new)
        self.assert_faults(*(f"there is no {what}" for *_, what in cases))

    def test_a_link_the_picture_and_the_key_of_the_page(self) -> None:
        self.change("docs/READING.md", "[`IsNotBehind`](../crates/agent_gate/specs/Turns.antt)",
                    "[`IsNotBehind`](../crates/agent_gate/specs/Gates.antt)")
        self.change("docs/READING.md", "`count_by`", "`counted`")
        self.change("docs/READING.md", " -- IsPosted, due_post ", " -- IsPost, due_post ")
        self.assert_faults("IsNotBehind is not at ../crates/agent_gate/specs/Gates.antt",
                           "the key lacks count_by", "not reach IsPost of the picture")
