#!/usr/bin/env python3
"""Reads the log of a game with the package's reader, which knows only the form of each line: a
baseline in Python for the audit.

    bench/plain_reader.py my.log

It writes how much it read, or `text L 1` with the first line that fits no log, as `tac audit` does.
"""

import sys
from pathlib import Path

from running import Parser, command

from geesefuton.records.logs import LogError, read_log, trades_of


def main() -> int:
    parser = Parser("plain_reader", __doc__)
    parser.add_argument("log", type=Path)
    text = parser.parse_args().log.read_bytes()
    try:
        log = read_log(text)
    except LogError as fault:
        print(f"text {fault.line} 1")
        return 1
    print(f"{text.count(10)} lines: {sum(map(len, log.histories))} entries, "
          f"{trades_of(log.histories)} trades, {len(log.cash)} entries of the cash book")
    return 0


if __name__ == "__main__":
    sys.exit(command("plain_reader", main))
