"""The addresses of this machine, also where nothing leads out of the room's network."""

import contextlib
import re
import socket
import unittest
from pathlib import Path
from typing import Any, Dict, List
from unittest import mock

from geesefuton.network import addresses
from geesefuton.network.addresses import (BACKLOG, join_address, listen, new_token, own_address,
                                          own_addresses)


class Machine:
    """A machine's sockets, by which no packet is sent.

    Args:
        routes: The address from which something would be sent out of each interface; "" stands for
            the default route.
        named: The addresses that its name stands for.
    """

    def __init__(self, routes: Dict[str, str], named: List[str]) -> None:
        self._routes, self._named = routes, named

    def socket(self, family: int, kind: int) -> Any:
        """A socket that knows from where it would send."""
        made = mock.MagicMock()
        made.__enter__.return_value = made
        made.interface = ""

        def bind_to(level: int, option: int, name: bytes) -> None:
            made.interface = name.decode()

        def connect(target: Any) -> None:
            if (":" in self._routes.get(made.interface, ".")) != (family == socket.AF_INET6) \
                    or made.interface not in self._routes:
                raise OSError(101, "Network is unreachable")

        made.setsockopt.side_effect, made.connect.side_effect = bind_to, connect
        made.getsockname.side_effect = lambda: (self._routes[made.interface], 9)
        return made

    def found(self) -> List[str]:
        names = [(number, name) for number, name in enumerate(["lo", *self._routes]) if name]
        with mock.patch.object(addresses.socket, "socket", self.socket), \
                mock.patch.object(addresses.socket, "if_nameindex", lambda: names), \
                mock.patch.object(addresses.socket, "gethostname", lambda: "host"), \
                mock.patch.object(addresses.socket, "getaddrinfo", self._lookup):
            self.first = own_address()
            return own_addresses()

    def _lookup(self, *_: Any) -> List[Any]:
        if not self._named:
            raise socket.gaierror
        return [(2, 1, 6, "", (each, 0)) for each in self._named]


class Own(unittest.TestCase):
    def test_the_default_route_comes_first_then_the_interfaces_and_then_the_name(self) -> None:
        for due, named, routes in (
                (["10.0.0.7", "192.168.1.5"], [],
                 {"": "10.0.0.7", "wlan0": "192.168.1.5", "eth0": "10.0.0.7", "lo": "127.0.0.1"}),
                (["fd00::7"], [], {"": "fd00::7"}),
                (["192.168.1.5"], [], {"lo": "127.0.0.1", "wlan0": "192.168.1.5"}),
                (["192.168.1.6"], ["127.0.1.1", "192.168.1.6"], {}),
                ([], [], {"lo": "127.0.0.1"})):
            with self.subTest(due=due):
                machine = Machine(routes, named)
                self.assertEqual(machine.found(), due)
                self.assertEqual(machine.first, due[0] if due else "localhost")

    def test_on_this_machine(self) -> None:
        for each in own_addresses():
            listen(0, each).close()

    def test_hundreds_of_links_may_wait_to_be_taken(self) -> None:
        if int(Path("/proc/sys/net/core/somaxconn").read_text()) < BACKLOG:
            self.skipTest("the system lets fewer")
        with contextlib.ExitStack() as stack:
            listener = stack.enter_context(listen(0, "127.0.0.1"))
            for _ in range(300):
                stack.enter_context(socket.create_connection(listener.getsockname(), timeout=5))

    def test_where_a_game_is_joined(self) -> None:
        self.assertEqual(join_address("192.0.2.7", 80), "http://192.0.2.7:80/join")
        self.assertEqual(join_address("fe80::1", 80), "http://[fe80::1]:80/join")

    def test_tokens_are_not_alike(self) -> None:
        tokens = {new_token() for _ in range(100)}
        self.assertEqual(len(tokens), 100)
        for token in tokens:
            self.assertTrue(re.fullmatch("[a-hjkmnp-z2-9]{10}", token), token)
