"""Seeds that nobody can guess before a contest, and everybody can check after it.

A contest draws a secret of 256 bits. From the start it publishes the secret's SHA-256, its
commitment. It keeps the secret until it is over, and then publishes it too. Every seed is derived
from the secret by HMAC-SHA-256, as docs/FORMATS.md, "Secret deals", describes, so anybody can make
the same games again with `tac make`.

An agent that knows its own clients can try some 2,000 seeds a second, so a seed has to have 64
bits. The generator of `tac make` is not a cipher: from one game's draws its seed can perhaps be
found faster, but not the secret, and so not the seed of another game.
"""

import hashlib
import hmac
import secrets

BYTES = 32  # of a secret
KEY = 12  # letters and digits of a seat's key


def new_secret() -> bytes:
    """A secret, from the system's source of randomness."""
    return secrets.token_bytes(BYTES)


def read_secret(text: str) -> bytes:
    """A secret from its 64 hexadecimal digits. Raises ValueError where the text is something
    else."""
    secret = bytes.fromhex(text)
    if len(secret) != BYTES or secret.hex() != text:
        raise ValueError(f"expected {2 * BYTES} lower-case hexadecimal digits")
    return secret


def commitment(secret: bytes) -> str:
    """The secret's SHA-256, in hexadecimal digits."""
    return hashlib.sha256(secret).hexdigest()


def _derived(secret: bytes, text: str) -> int:
    return int.from_bytes(hmac.new(secret, text.encode(), hashlib.sha256).digest()[:8], "big")


def deal_seed(secret: bytes, number: int) -> int:
    """The seed for `tac make` of the deal of a number, from 1: 64 bits."""
    return _derived(secret, f"deal {number}")


def seat_key(secret: bytes, game: str, seat: int) -> str:
    """The word that an agent says for a seat of a game: 12 letters and digits that no other agent
    can guess."""
    number, word = _derived(secret, f"seat {game} {seat}"), ""
    while len(word) < KEY:
        number, digit = divmod(number, 36)
        word += "0123456789abcdefghijklmnopqrstuvwxyz"[digit]
    return word


def agent_seed(secret: bytes, game: str, name: str) -> int:
    """An agent's AGENT_SEED, 64 bits, by the name of the game and the agent's own."""
    return _derived(secret, f"agent {game} {name}")
