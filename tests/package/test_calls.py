"""The check of public calls, on a small crate with one change each."""

import importlib
import sys
import tempfile
import unittest
from pathlib import Path
from typing import List
from unittest import mock

from tests.package.helpers import TOP

with mock.patch.object(sys, "path", [str(TOP / "tests" / "lint"), *sys.path]):
    calls = importlib.import_module("calls")

LIB = "mod book;\npub mod limits;\n\npub use book::{\n    Book, Keep, Kind, Row, read_book,\n};\n"
LIMITS = "pub const MOST: u8 = 3;\n"
BOOK = """
/// A book. One `pub fn lost(` in a comment is no call.
#[derive(Drop)]
pub struct Book {
    /// Its prices, in dollars.
    pub prices: [u8; MOST],
    pub names: Vec<(u8, Kind)>,
    pub(crate) own: u8,
    pub ghost few: { (all prices) → prices.items ≤ { 3 } },
}

pub enum Kind {
    Open,
    /// At a place.
    At { place: u32 },
    Held(u8),
}

pub trait Keep: Drop {
    type Key: Drop;

    ghost state: { Self → Self.Key };

    fn look(&mut self, key: Self::Key) -> u8
        ensures value { result ≡ state self.new };

    fn shut(self);
}

pub struct Row<L> {
    row: L,
}

impl<L: Keep> Row<L> {
    ghost use Rattle.shop.specs.{pub, fn};

    pub fn bid<R: Wait + Clock>(
        &mut self,
        good: u8,
        mut price: u16,
    ) -> Kind
        ghost step: { Step }
        requires few { price ≤ 3 }
    {
        let text = "}\\n{ // pub fn";
        Kind::Held(b'{')
    }
}

impl Keep for Book {
    type Key = u8;

    fn look(&mut self, key: u8) -> u8 {
        key
    }
}

pub fn read_book<'a>(text: &'a [u8], second: &[u8]) -> &'a [u8]
    ensures { result ≡ text }
{
    text
}
"""
HEAD = "impl<L: Keep> Row<L>: fn"
DUE = {
    "Book": "struct { prices: [u8; MOST], names: Vec<(u8, Kind)>, .. }",
    "Book::look": "fn(&mut self, key: u8) -> u8",
    "Keep": "trait: Drop { type Key: Drop }",
    "Keep for Book": "impl { type Key = u8 }",
    "Keep::look": "fn(&mut self, key: Self::Key) -> u8",
    "Keep::shut": "fn(self)",
    "Kind": "enum { Open, At { place: u32 }, Held(u8) }",
    "Row::bid": HEAD + "<R: Wait + Clock>(&mut self, good: u8, price: u16) -> Kind",
    "limits::MOST": "const: u8 = 3",
    "read_book": "fn<'a>(text: &'a [u8], second: &[u8]) -> &'a [u8]",
}
MISSING = "missing, or not public"
CHANGES = [  # an item, what is changed in its source, and its type then
    ("Row::bid", "good: u8,", "good: u32,",
     HEAD + "<R: Wait + Clock>(&mut self, good: u32, price: u16) -> Kind"),
    ("Row::bid", "good: u8,\n        mut price: u16,", "price: u16, good: u8,",
     HEAD + "<R: Wait + Clock>(&mut self, price: u16, good: u8) -> Kind"),
    ("Row::bid", ") -> Kind", ")", HEAD + "<R: Wait + Clock>(&mut self, good: u8, price: u16)"),
    ("Row::bid", "<R: Wait + Clock>", "<R: Wait>",
     HEAD + "<R: Wait>(&mut self, good: u8, price: u16) -> Kind"),
    ("Row::bid", "impl<L: Keep> Row", "impl<L> Row",
     "impl<L> Row<L>: fn<R: Wait + Clock>(&mut self, good: u8, price: u16) -> Kind"),
    ("Row::bid", "pub fn bid", "fn bid", MISSING),
    ("Row::bid", "pub fn bid", "pub(crate) fn bid", MISSING),
    ("read_book", "second: &[u8]", "second: &'a [u8]",
     "fn<'a>(text: &'a [u8], second: &'a [u8]) -> &'a [u8]"),
    ("read_book", "text: &'a [u8], second: &[u8]", "second: &[u8], text: &'a [u8]",
     "fn<'a>(second: &[u8], text: &'a [u8]) -> &'a [u8]"),
    ("read_book", "pub fn read_book", "pub(crate) fn read_book", MISSING),
    ("Book", "    pub prices: [u8; MOST],\n", "", "struct { names: Vec<(u8, Kind)>, .. }"),
    ("Book", "pub prices", "prices", "struct { names: Vec<(u8, Kind)>, .. }"),
    ("Book", "    pub(crate) own: u8,\n", "",
     "struct { prices: [u8; MOST], names: Vec<(u8, Kind)> }"),
    ("Kind", "Open,\n", "Open,\n    Shut,\n", "enum { Open, Shut, At { place: u32 }, Held(u8) }"),
    ("Kind", "place: u32", "place: u8", "enum { Open, At { place: u8 }, Held(u8) }"),
    ("Keep", "trait Keep: Drop", "trait Keep", "trait { type Key: Drop }"),
    ("Keep for Book", "Key = u8", "Key = u16", "impl { type Key = u16 }"),
    ("Keep::look", "key: Self::Key", "key: &Self::Key", "fn(&mut self, key: &Self::Key) -> u8"),
    ("limits::MOST", "= 3;", "= 4;", "const: u8 = 4"),
]


class Calls(unittest.TestCase):
    def faults(self, book: str = BOOK, lib: str = LIB, limits: str = LIMITS) -> List[str]:
        """The faults of a crate `shop`, some of which a crate `mall` gives to others as well."""
        rows = [("crate", "item", "type"), *(("shop", *row) for row in DUE.items()),
                ("mall", "Kind", DUE["Kind"])]
        with tempfile.TemporaryDirectory() as folder:
            for name, text in (("shop/src/lib.rt", lib), ("shop/src/book.rt", book),
                               ("shop/src/limits.rt", limits),
                               ("mall/src/lib.rt", "pub use shop::Kind;\n"),
                               ("calls.tsv", "".join("\t\t".join(row) + "\n" for row in rows))):
                Path(folder, name).parent.mkdir(parents=True, exist_ok=True)
                Path(folder, name).write_text(text, encoding="utf-8")
            return list(calls.calls(Path(folder)))

    def test_each_change_of_a_type_is_told(self) -> None:
        self.assertEqual(self.faults(), [])
        for item, old, new, stands in CHANGES:
            with self.subTest(item=item, old=old, new=new):
                self.assertEqual((BOOK + LIMITS).count(old), 1)
                found = self.faults(BOOK.replace(old, new), limits=LIMITS.replace(old, new))
                place = list(DUE).index(item) + 2
                due = f"of shop is {stands}; due is {DUE[item]}"
                self.assertEqual(found[0], f"crates/calls.tsv:{place}: {item} {due}")
                self.assertEqual(len(found), 1 + (item == "Kind"))  # `mall` gives it as well

    def test_what_a_crate_does_not_give_is_missing(self) -> None:
        for name, crates in (("read_book", ["shop"]), ("Kind", ["shop", "mall"])):
            with self.subTest(name=name):
                lib = LIB.replace(f" {name},", "")
                found = self.faults(lib=lib)
                self.assertEqual([fault.split(": ", 1)[1] for fault in found], [
                    f"{name} of {crate} is {MISSING}; due is {DUE[name]}" for crate in crates])

    def test_contracts_and_layout_are_no_part_of_a_type(self) -> None:
        for old, new in (("price ≤ 3 }", "price ≤ 4 }\n        requires any { price ≡ { 1 } }"),
                         ("good: u8,\n        mut price: u16,\n    )", "good: u8, price: u16)"),
                         ("#[derive(Drop)]", "#[derive(Clone, Drop)]"), ("dollars", "euros"),
                         ("    pub ghost few: { (all prices) → prices.items ≤ { 3 } },\n", ""),
                         ("    text\n", "    let price = text;\n    price\n")):
            with self.subTest(old=old):
                self.assertEqual(BOOK.count(old), 1)
                self.assertEqual(self.faults(BOOK.replace(old, new)), [])
