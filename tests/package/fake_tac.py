#!/usr/bin/env python3
"""A stand-in for the program in tests of the lobby: it admits links and answers lines, by no rules.

`own N` is answered `@N own 0 ()`, `bid N ..` after a while by `@N taken 0 0`, and any other line is
refused. The log has a line for each line that was asked, and for each tick of a script. FAKE_STATUS
is the exit status of `serve` and `step`, below 0 for a signal that ends `serve`, the file
FAKE_TAKEN makes it end as if its port were taken, once, and FAKE_EARLY at once. FAKE_LATE is how
many seconds `serve` takes until it listens, and FAKE_HEAD stands at the head of its log; with
FAKE_STAYS it does not end after that. While there is a file FAKE_STRANGER, the first link is a
stranger's, which says what is in the file; the file is removed then. FAKE_SLOW is how many seconds
each line waits for its answer, and a line that begins with FAKE_HANG has none.

`audit` calls each log sound, and `vouch` vouches for each link of a seat.

It is started for nearly each test of the lobby, so what takes a while to load is loaded where it is
needed.
"""

from __future__ import annotations

import os
import sys
import time

TYPE_CHECKING = False  # as in `typing`
if TYPE_CHECKING:
    import socket

REFUSED: list[socket.socket] = []  # links that stay open
SLOW = 0.25  # seconds until a bid is answered


def answer(line: bytes) -> bytes:
    words = line.split(b" ")
    time.sleep(float(os.environ.get("FAKE_SLOW", "0")))
    if "FAKE_HANG" in os.environ and line.startswith(os.environ["FAKE_HANG"].encode()):
        time.sleep(1e6)
    if len(line) > 512:
        return b"no toolong"
    if words[0] == b"own" and len(words) == 2:
        return b"@%s own 0 ()" % words[1]
    if words[0] == b"bid":
        time.sleep(SLOW)
        return b"@%s taken 0 0" % words[1]
    return b"bye" if line == b"quit" else b"no syntax"


def session(agent: int, link: socket.socket, welcome: bytes, asked: list[str]) -> None:
    """Answers an agent's lines until its link ends."""
    link.sendall(welcome)
    for line in link.makefile("rb"):
        if not line.endswith(b"\n"):
            break
        asked.append(f"{agent} {line[:-1].decode('latin-1')}")
        reply = answer(line[:-1])
        link.sendall(reply + b"\n")
        if reply == b"bye":
            break


def step(script: str) -> int:
    """Plays a script line by line, and writes its log."""
    if "FAKE_EARLY" in os.environ:
        return int(os.environ["FAKE_EARLY"])
    asked = []
    for line in open(script, "rb"):
        asked.append(line[:-1].decode("latin-1"))
        if line != b"tick\n":
            print(line[:2].decode() + answer(line[2:-1]).decode("latin-1"), flush=True)
    sys.stdout.buffer.write("\n".join(["taclog 1", *asked, "end", ""]).encode("latin-1"))
    return int(os.environ.get("FAKE_STATUS", "0"))


def serve(game: str, port: int) -> int:
    """Plays a game without ticks, and writes its log once all links have ended."""
    import socket
    import threading
    taken = os.environ.get("FAKE_TAKEN")
    if taken and os.path.exists(taken):
        os.remove(taken)
        return 5
    if "FAKE_EARLY" in os.environ:
        return int(os.environ["FAKE_EARLY"])
    lines = [line.split() for line in open(game, encoding="ascii")]
    words = lines[1][1:]
    time.sleep(float(os.environ.get("FAKE_LATE", "0")))
    try:
        listener = socket.create_server((os.environ["TAC_BIND"], port))
    except OSError:
        return 5
    kept = stranger(port)
    links, threads, asked = admit(listener, words), [], []
    kept.close()
    for agent, link in links.items():
        own = [" ".join(line) for line in lines if line[0] in ("endow", "client")
               and line[1] == str(agent)]
        welcome = "\n".join([f"welcome {agent}", *own, ""]).encode()
        threads.append(threading.Thread(target=session, args=(agent, link, welcome, asked)))
        threads[-1].start()
    for thread in threads:
        thread.join()
    status = int(os.environ.get("FAKE_STATUS", "0"))
    if status < 0:
        os.kill(os.getpid(), -status)
    head = os.environ.get("FAKE_HEAD", "").split(",") if "FAKE_HEAD" in os.environ else []
    print("taclog 1", *head, *asked, "end", sep="\n", flush=True)
    if "FAKE_STAYS" in os.environ:
        os.close(1)
        time.sleep(1e6)
    return status


def vouch(game: str, asked: str, said: str) -> int:
    words = next(line.split()[1:] for line in open(game, encoding="ascii")
                 if line.startswith("words "))
    lines, replies = (open(file, "rb").read().split(b"\n")[:-1] for file in (asked, said))
    seat = words.index(lines[0].decode().split()[1])
    is_whole = len(replies) - 10 == len(lines) - 1
    print(f"vouched {seat} whole {len(lines) - 1}" if is_whole else
          f"vouched {seat} cut {len(replies) - 10} 0")
    return 0


def stranger(port: int) -> socket.socket:
    """A link that comes before all others, if there is a file FAKE_STRANGER."""
    import socket
    file = os.environ.get("FAKE_STRANGER", "")
    link = socket.socket()
    if os.path.exists(file):
        link.connect(("127.0.0.1", port))
        with open(file, "rb") as said:
            link.sendall(said.read())
        os.remove(file)
    return link


def admit(listener: socket.socket, words: list[str]) -> dict[int, socket.socket]:
    """Takes links, one after the other, until each word has one."""
    seats: dict[int, socket.socket] = {}
    while len(seats) < len(words):
        link, _ = listener.accept()
        word = link.makefile("rb").readline().decode().partition(" ")[2].rstrip()
        if word in words and words.index(word) not in seats:
            seats[words.index(word)] = link
        else:
            link.sendall(b"refused taken\n")
            REFUSED.append(link)
    return dict(sorted(seats.items()))


if __name__ == "__main__":
    if sys.argv[1] == "show":
        print(*(line for line in open(sys.argv[2], encoding="ascii") if line[0] not in "#\n"),
              sep="", end="")
        sys.exit(0)
    if sys.argv[1] == "step":
        sys.exit(step(sys.argv[3]))
    if sys.argv[1] == "audit":
        print("sound")
        sys.exit(0)
    if sys.argv[1] == "vouch":
        sys.exit(vouch(sys.argv[2], *sys.argv[4:6]))
    if sys.argv[1] != "serve":
        print("usage")
        sys.exit(1)
    sys.exit(serve(sys.argv[2], int(sys.argv[3])))
