#!/usr/bin/env python3
"""Builds the search for the best allocation as plain Rust, without contracts and proofs, so that a
change of it can be tried in seconds.

    bench/search_as_rust.py FOLDER     writes FOLDER/src and builds FOLDER/solve by rustc
    FOLDER/solve solve ACCOUNT         prints the lines `total` and `cert` that `tac solve` prints,
                                       so bench/climb.py --tac takes it
    FOLDER/solve ACCOUNT ..            a line each: total, lines and leaves of the certificate,
                                       milliseconds
    FOLDER/solve plain ACCOUNT ..      the same, and the leaves of plain branching, which starts
                                       with the best total and splits by the greatest branching
                                       priority whatever part's relaxation is worth more

It takes `packages`, `relaxation`, `dual_bound` and `allocator` from crates/, leaves out what only
proofs need, and writes small stand-ins for the crates below them. The certificates have the same
lines as the proved program's. Edit FOLDER/src and call rustc again to try a change.
"""

import re
import shutil
import sys
from pathlib import Path

from running import Parser, command, need, run

TOP = Path(__file__).resolve().parent.parent / "crates"
CRATES = ("packages", "relaxation", "dual_bound", "allocator")
STANDINS = {
    "tac_base.rs": """#[derive(Clone, Copy)]
pub struct Client { pub arrive: u8, pub depart: u8, pub premium: u8, pub values: [u8; 3] }
#[derive(Clone, Copy)]
pub struct Good(u8);
impl Good {
    pub fn new(number: u8) -> Option<Good> { Some(Good(number)) }
    pub fn get(&self) -> u8 { self.0 }
    pub fn inbound_flight(day: u8) -> Good { Good(day - 1) }
    pub fn outbound_flight(day: u8) -> Good { Good(day + 2) }
    pub fn hotel_night(hotel: u8, night: u8) -> Good { Good(8 + 4 * hotel + night - 1) }
    pub fn ticket_night(kind: u8, night: u8) -> Good { Good(16 + 4 * kind + night - 1) }
}
pub mod limits {
    pub const AGENTS: u8 = 8;
    pub const GOODS: u8 = 28;
    pub const DUAL_PRICE: u16 = 14_001;
    pub const BEST_TOTAL: u32 = 14_000;
}
pub struct AllocError;
pub struct AllocFailed<T>(pub T);
pub struct Memory;
impl From<AllocError> for Memory { fn from(_: AllocError) -> Memory { Memory } }
""",
    "game_text.rs": """pub struct Account {
    pub clients: [crate::tac_base::Client; 8],
    pub holdings: [i32; 28],
}
""",
    "bound_cert.rs": """pub enum CertNode {
    Leaf(crate::packages::Prices),
    Split { client: u8, feature: u8, children: Vec<CertNode> },
}
pub struct Cert { pub root: CertNode }
pub struct Solved { pub allocation: [crate::packages::Package; 8], pub total: u32, pub cert: Cert }
impl CertNode {
    /// The lines and the leaves.
    pub fn count(&self) -> (usize, usize) {
        match self {
            CertNode::Leaf(_) => (1, 1),
            CertNode::Split { children, .. } => children
                .iter()
                .map(CertNode::count)
                .fold((1, 0), |sum, one| (sum.0 + one.0, sum.1 + one.1)),
        }
    }
}
""",
    "main.rs": """#![allow(unused)]
mod tac_base; mod game_text; mod bound_cert; mod packages;
mod relaxation; mod dual_bound; mod allocator;

fn read(file: &str) -> game_text::Account {
    let text = std::fs::read_to_string(file).unwrap();
    let rows: Vec<Vec<i32>> = text.lines()
        .filter(|line| line.starts_with("hold") || line.starts_with("client"))
        .map(|line| line.split(' ').skip(1).map(|word| word.parse().unwrap()).collect()).collect();
    let clients: Vec<_> = rows[1..].iter().map(|row| tac_base::Client {
        arrive: row[1] as u8, depart: row[2] as u8, premium: row[3] as u8,
        values: [row[4] as u8, row[5] as u8, row[6] as u8],
    }).collect();
    game_text::Account {
        clients: clients.try_into().ok().unwrap(),
        holdings: rows[0].clone().try_into().unwrap(),
    }
}

/// The leaves of plain branching; from ten million on it splits no more.
fn plain_leaves(left: &relaxation::Relaxation, total: u32, leaves: &mut u64) {
    let priorities = left.priorities();
    let greatest = (0..32)
        .fold(0, |most, place| if priorities[place] > priorities[most] { place } else { most });
    if *leaves >= 10_000_000 || !left.is_worth_more(total) || priorities[greatest] == 0.0 {
        *leaves += 1;
        return;
    }
    let (client, feature) = (greatest as u8 / 4, greatest as u8 % 4);
    for value in 0..packages::value_count(feature) {
        let mut part = *left;
        part.narrow(client, feature, value);
        part.repair(total);
        plain_leaves(&part, total, leaves);
    }
}

fn main() {
    let words: Vec<String> = std::env::args().skip(1).collect();
    let asked = words.len() == 2 && words[0] == "solve";
    let with_plain = words.first().is_some_and(|word| word == "plain");
    for file in &words[usize::from(asked || with_plain)..] {
        let account = read(file);
        let start = std::time::Instant::now();
        let solved = allocator::solve(&account).ok().unwrap();
        let spent = 1000.0 * start.elapsed().as_secs_f64();
        let (lines, leaves) = solved.cert.root.count();
        if asked {
            println!("total {}\\ncert {lines}", solved.total);
        } else {
            print!("{file} total {} lines {lines} leaves {leaves} ms {spent:.2}", solved.total);
            if with_plain {
                let mut others = 0;
                plain_leaves(&relaxation::Relaxation::new(&account), solved.total, &mut others);
                print!(" plain {others}");
            }
            println!();
        }
    }
}
""",
}


def after_block(text: str, start: int) -> int:
    """The place after the brace that closes the next one that opens."""
    depth, place = 0, text.index("{", start)
    while True:
        depth += {"{": 1, "}": -1}.get(text[place], 0)
        place += 1
        if depth == 0:
            return place


def without(pattern: str, text: str) -> str:
    """The text without what begins so, up to the brace that closes it and a comma or semicolon of a
    ghost item after that."""
    while found := re.search(pattern, text, re.M):
        end = after_block(text, found.start())
        is_item = "ghost" in found.group(0) and text[end:end + 1] in (",", ";")
        line_end = "\n" if is_item else ""
        text = text[:found.start()].rstrip(" \n") + line_end + text[end + is_item:]
    return text


def as_rust(text: str, crate: str) -> str:
    """A module of a crate without what only proofs need."""
    def derived(found: "re.Match[str]") -> str:
        names = found.group(1).split(", ")
        return f"derive({', '.join(name for name in names if name not in ('Drop', 'Debug'))})"

    text = "\n".join(line for line in text.split("\n") if not line.strip().startswith("//"))
    text = re.sub(r"^\s*ghost use [^;]*;\n", "", text, flags=re.M)
    text = re.sub(r"^\s*#!?\[(tactic|cycle)[^\n]*\n", "", text, flags=re.M)
    for pattern in (r"^[ \t]*ghost ", r"^[ \t]*(requires|ensures)\b",
                    r"^impl(<[^>]*>)? Model for"):
        text = without(pattern, text)
    text = re.sub(r"use std::(marker::Model|alloc::[^;]*|num::saturating_f64_to_u16);\n", "", text)
    text = re.sub(r"\bsaturating_f64_to_u16\(", "(|number: f64| number as u16)(", text)
    text = re.sub(r"derive\(([^)]*)\)", derived, text)
    text = re.sub(r"(pub\(crate\) )?\balloc: Global,|\balloc,", "", text)
    text = re.sub(r"Vec::new\((search\.)?alloc\)", "Vec::new()", text)
    text = text.replace("children.push(child)?", "children.push(child)")
    text = text.replace("crate::", f"crate::{crate}::").replace("pub(crate)", "pub")
    text = re.sub(r"\b(AllocError|AllocFailed)\b", r"crate::tac_base::\1", text)
    return re.sub(rf"\buse ({'|'.join(CRATES)}|tac_base|game_text|bound_cert)::",
                  r"use crate::\1::", text)


def main() -> int:
    parser = Parser("search_as_rust", __doc__)
    parser.add_argument("folder", type=Path)
    folder = parser.parse_args().folder
    need("rustc")
    source = folder / "src"
    shutil.rmtree(source, ignore_errors=True)
    for crate in CRATES:
        (source / crate).mkdir(parents=True)
        for file in (TOP / crate / "src").glob("*.rt"):
            text = as_rust(file.read_text(), crate)
            if file.stem == "lib":
                text = re.sub(r"mod printing;|pub use printing[^;]*;", "", text)
            elif file.stem == "printing":
                continue
            name = "mod.rs" if file.stem == "lib" else file.stem + ".rs"
            (source / crate / name).write_text(text)
    for name, text in STANDINS.items():
        (source / name).write_text(text)
    run(["rustc", "--edition", "2021", "-O", source / "main.rs", "-o", folder / "solve"])
    return 0


if __name__ == "__main__":
    sys.exit(command("search_as_rust", main))
