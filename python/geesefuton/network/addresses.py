"""The addresses of this machine and of links: listeners, networks, and tokens of pages."""

from __future__ import annotations

import base64
import contextlib
import ipaddress
import os
import secrets
import shutil
import socket
import subprocess
from typing import Iterator, List, Optional, Union

ANYWHERE = "192.0.2.1"  # an address for documents, to which nothing is sent
LETTERS = "abcdefghjkmnpqrstuvwxyz23456789"  # none that is taken for another one
TOKEN = 10  # letters
BACKLOG = 1024  # links that wait to be taken, where the system lets so many: others are kept out

Address = Union[ipaddress.IPv4Address, ipaddress.IPv6Address]
Network = Union[ipaddress.IPv4Network, ipaddress.IPv6Network]


def listen(port: int, address: str = "") -> socket.socket:
    """A listening socket at an address of the machine, or at all of them.

    Raises:
        OSError: The port is taken, or may not be used, or there is no such address here.
    """
    both = not address and socket.has_dualstack_ipv6()
    family = socket.AF_INET6 if both or ":" in address else socket.AF_INET
    try:
        return socket.create_server((address, port), family=family, dualstack_ipv6=both,
                                    backlog=BACKLOG)
    except socket.gaierror:
        raise  # the address is a name that nobody has
    except OSError as fault:
        raise OSError(fault.errno, os.strerror(fault.errno or 0), f"port {port}") from None


def own_addresses() -> List[str]:
    """The addresses by which other machines may reach this one, the likeliest first; none if it is
    in no network."""
    found = [each for each in _sent_from_each() if each is not None] or _named_addresses()
    return [each for each in dict.fromkeys(found) if not parsed(each).is_loopback]


def own_address() -> str:
    """The address by which other machines most likely reach this one."""
    return next(iter(own_addresses()), "localhost")


def _sent_from_each() -> Iterator[Optional[str]]:
    """The addresses that the system would send from: to anywhere, by its default route, and then
    out of each interface, which needs no route."""
    yield _sent_from(socket.AF_INET, ANYWHERE) or _sent_from(socket.AF_INET6, "2001:db8::1")
    if hasattr(socket, "SO_BINDTODEVICE"):
        for _, interface in socket.if_nameindex():
            yield _sent_from(socket.AF_INET, ANYWHERE, interface)


def _sent_from(family: int, target: str, interface: str = "") -> Optional[str]:
    """The address from which something would be sent; None if it could not be."""
    with contextlib.suppress(OSError), socket.socket(family, socket.SOCK_DGRAM) as probe:
        if interface:
            probe.setsockopt(socket.SOL_SOCKET, socket.SO_BINDTODEVICE, interface.encode())
        probe.connect((target, 9))  # sends nothing: the system only chooses an address
        return str(probe.getsockname()[0])
    return None


def _named_addresses() -> List[str]:
    """The addresses that the name of this machine stands for."""
    with contextlib.suppress(OSError):
        return [str(found[4][0]) for found in socket.getaddrinfo(
            socket.gethostname(), None, socket.AF_INET, socket.SOCK_STREAM)]
    return []


def join_address(host: str, port: int) -> str:
    """Where a game is joined whose pages are at a port."""
    return f"http://{f'[{host}]' if ':' in host else host}:{port}/join"


def qr_picture(text: str) -> str:
    """The address of a picture of a text's QR code, which it has in itself, by `qrencode`; "" if
    that is not installed, or there is no text."""
    coder = shutil.which("qrencode")
    if coder is None or not text:
        return ""
    code = subprocess.run([coder, "-t", "SVG", text], stdout=subprocess.PIPE,
                          stdin=subprocess.DEVNULL, check=False).stdout
    return f"data:image/svg+xml;base64,{base64.b64encode(code).decode()}" if code else ""


def new_token() -> str:
    """A token that nobody guesses, which a seat word may be: 49 bits, in letters and digits."""
    return "".join(secrets.choice(LETTERS) for _ in range(TOKEN))


def parsed(text: str) -> Address:
    """An address, however it is written: `10.0.0.7` of `::ffff:10.0.0.7`.

    Raises:
        ValueError: It is none.
    """
    address = ipaddress.ip_address(text.partition("%")[0])
    mapped = address.ipv4_mapped if isinstance(address, ipaddress.IPv6Address) else None
    return mapped or address


def network_of(text: str) -> Network:
    """The addresses that a text stands for: those of `2001:db8::/64`, or a single one.

    Raises:
        ValueError: It is neither.
    """
    return ipaddress.ip_network(text if "/" in text else parsed(text), strict=False)


def plain_network(network: Network) -> str:
    """The one text of some addresses, that of the address if it is a single one."""
    return str(network.network_address if network.num_addresses == 1 else network)
