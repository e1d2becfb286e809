"""How a game is joined: the page on which a person with the word of a seat plays it, or downloads
a one-file starter in one of three languages, with the address of the game filled in.

The browser fills the word into a starter, and sends it only to play.
"""

from __future__ import annotations

import re
from pathlib import Path
from typing import Dict, Optional

from geesefuton import program
from geesefuton.network.addresses import join_address, qr_picture
from geesefuton.network.pages import Response, read_page

STARTERS = ("starter.py", "starter.mjs", "Starter.java")
HERE = re.compile(r"localhost|127\.[0-9.]+|::1")  # a name of the machine itself
HOST = re.compile(r"(?:\[([0-9A-Fa-f:.]+)\]|([0-9A-Za-z.-]+))(?::[0-9]+)?")


class Handouts:
    """The page on which a game is joined, and the starters.

    Args:
        port: The port for agents.
        address: The host's address, for a browser on the host itself; "" if it is not known.
        page: The port of the page; None if there is none.
        has_starters: Whether there are starters for the game: they send words.
        again: Whether a starter asks for a seat in the next game after each, as in a room.

    Attributes:
        told: What screens say of how to join: the host, the port for agents, the address of the
            page, and the picture of a QR code of it, "" if there is none.
    """

    def __init__(self, port: int, address: str = "", page: Optional[int] = None,
                 has_starters: bool = True, again: bool = False) -> None:
        self._port, self._address, self._again = port, address, again
        self._page = read_page(Path(__file__).with_name("join.html")).decode()
        self._texts = _read_starters() if has_starters else {}
        join = join_address(address or "localhost", page) if page else ""
        self.told = {"port": port, "address": address, "join": join,
                     "code": qr_picture(join) if address else ""}

    def answer(self, path: str, host: str) -> Optional[Response]:
        """The file at a path such as `/starter.py`, for a browser that calls the host so, such as
        `192.0.2.7:7080`; None if there is none."""
        name = path[1:]
        if name == "join":
            page = self._page.replace("--host--", self._name(host)).replace(
                "--port--", str(self._port)).replace("--again--", " --again" * self._again)
            page = page.replace("--starters--", "" if self._texts else "hidden")
            return Response("200 OK", "text/html; charset=utf-8", page.encode())
        if name in self._texts:
            return Response("200 OK", "text/plain; charset=utf-8",
                            self._filled(name, host).encode())
        return None

    def _name(self, host: str) -> str:
        """The host's address, as agents are to use it."""
        found = HOST.fullmatch(host)
        name = (found[1] or found[2]) if found else "localhost"
        return self._address or name if HERE.fullmatch(name) else name

    def _filled(self, name: str, host: str) -> str:
        again = str(self._again)
        values = {"HOST": f'"{self._name(host)}"', "PORT": str(self._port),
                  "AGAIN": again if name.endswith(".py") else again.lower()}
        text = self._texts[name]
        for key, value in values.items():
            text = re.sub(rf'\b{key} = ("[^"\n]*"|\w+)', f"{key} = {value}", text, count=1)
        return text


def _read_starters() -> Dict[str, str]:
    """The starters by their names; none if one is not installed."""
    try:
        folder = program.examples() / "starters"
        return {name: (folder / name).read_text(encoding="utf-8") for name in STARTERS}
    except (OSError, program.ProgramError):
        return {}
