"""A seat that is played by hand, as a browser does on the seat's page.

    python3 tests/support/hand.py PORT

It joins at the page of a port by the word `seat0`, and stays until the game is over.
"""

import http.client
import json
import sys
import time
from typing import Any, Dict

FAULTS = (OSError, http.client.HTTPException, ValueError)  # the page is not there, or ends


class Hand:
    """Somebody at the page of a seat, which is joined by its word.

    Args:
        port: Of the page.
        word: Of the seat.
        address: From which the links come.
    """

    def __init__(self, port: int, word: str, address: str = "127.0.0.1") -> None:
        self._link = http.client.HTTPConnection("127.0.0.1", port, source_address=(address, 0))
        self._word, self._token = word, ""

    def ask(self, what: str, **given: Any) -> Dict[str, Any]:
        """The answer of the seat's page. Raises one of FAULTS if there is none."""
        if not self._token:
            self._token = self._sent("play", self._word)
            self._link.close()  # what has shown no token ends with its answer
        answer: Dict[str, Any] = json.loads(self._sent(f"{self._token}/{what}", json.dumps(given)))
        return answer

    def _sent(self, path: str, body: str) -> str:
        try:
            self._link.request("POST", f"/{path}", body, {"Content-Type": "application/json"})
            answer = self._link.getresponse()
            text = answer.read().decode()
            if path == "play" and answer.status != 200:
                raise ValueError(text)
            return text
        except FAULTS:
            self._link.close()
            raise


def main() -> None:
    hand, page, phase = Hand(int(sys.argv[1]), "seat0"), "", ""
    while phase not in ("over", "failed"):
        try:
            page = page or hand.ask("open")["page"]
            phase = hand.ask("state", page=page)["phase"]
        except ConnectionRefusedError:  # it is not there yet, or not any more
            if page:
                break
        except FAULTS:
            pass  # the link is made again
        time.sleep(0.2)


if __name__ == "__main__":
    main()
