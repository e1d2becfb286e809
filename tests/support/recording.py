"""A relay between agents and a server that keeps the bytes of each link at the server's side, and
passes on what comes as it comes: also half-closed links and resets."""

import asyncio
import contextlib
import socket
import struct
from typing import Any, List, NamedTuple, Optional

PIECE = 1 << 16  # bytes that are read at once
TRIES, BETWEEN = 2000, 0.005  # tries to reach a server that does not listen yet, and seconds
LINGER = struct.pack("ii", 1, 0)


class Streams(NamedTuple):
    """Both directions of a connection."""

    reader: asyncio.StreamReader
    writer: asyncio.StreamWriter

    async def line(self) -> bytes:
        """The next line with its end; less if the connection ended first."""
        return await self.reader.readline()

    def end(self) -> None:
        """Sends nothing more."""
        with contextlib.suppress(OSError, RuntimeError):
            self.writer.write_eof()

    def reset(self) -> None:
        """Ends the connection by a reset."""
        own = self.writer.get_extra_info("socket")
        with contextlib.suppress(OSError):
            own.setsockopt(socket.SOL_SOCKET, socket.SO_LINGER, LINGER)
        self.writer.transport.abort()


async def reach(host: str, port: int, tries: int = TRIES, between: float = BETWEEN, **how: Any
                ) -> Streams:
    """A connection to a server that may not listen yet; `how` is passed on to asyncio.

    Raises:
        OSError: It does not listen after so many tries, with so many seconds between them.
    """
    for _ in range(tries):
        with contextlib.suppress(OSError):
            return Streams(*await asyncio.open_connection(host, port, **how))
        await asyncio.sleep(between)
    raise ConnectionRefusedError


class KeptLink:
    """A link and its bytes at the server's side.

    Attributes:
        asked: What was given to the server.
        said: What the server sent.
        agent: The connection to the agent.
        server: The connection to the server, once there is one.
        has_ended: Whether the server has ended its side.
    """

    def __init__(self, agent: Streams) -> None:
        self.asked, self.said, self.agent = bytearray(), bytearray(), agent
        self.server: Optional[Streams] = None
        self.has_ended = False

    def is_welcome(self) -> bool:
        """Whether it has its seat, and was sent all ten lines."""
        return self.said.startswith(b"welcome ") and self.said.count(b"\n") >= 10


class Relay:
    """Passes links on to a server.

    Args:
        port: The port of the server.

    Attributes:
        links: The links in the order in which they came.
        began: Is set once a link was sent its welcome.
    """

    def __init__(self, port: int) -> None:
        self.port, self._tasks = port, set["asyncio.Task[None]"]()
        self.links: List[KeptLink] = []
        self.began = asyncio.Event()
        self._listener: Optional[asyncio.AbstractServer] = None

    async def open(self) -> int:
        """Takes links from now on; gives the port for agents."""
        self._listener = await asyncio.start_server(self._take, "127.0.0.1", 0)
        port: int = self._listener.sockets[0].getsockname()[1]
        return port

    async def close(self) -> None:
        """Ends all that is left."""
        assert self._listener is not None
        self._listener.close()
        for task in list(self._tasks):
            task.cancel()
        await asyncio.gather(*self._tasks, return_exceptions=True)

    def left(self) -> List[KeptLink]:
        """The links whose server has not ended them."""
        return [link for link in self.links if link.server and not link.has_ended]

    async def _pump(self, source: Streams, target: Streams, kept: bytearray) -> None:
        """Passes on one direction, and keeps its bytes before they are sent."""
        try:
            while True:
                data = await source.reader.read(PIECE)
                if not data:
                    return target.end()
                kept += data
                if kept.startswith(b"welcome "):
                    self.began.set()
                target.writer.write(data)
                await target.writer.drain()
        except OSError:
            target.reset()
        except RuntimeError:
            pass  # its side was ended, so nothing more is sent

    def _take(self, reader: asyncio.StreamReader, writer: asyncio.StreamWriter) -> None:
        task = asyncio.ensure_future(self._serve(Streams(reader, writer)))
        self._tasks.add(task)
        task.add_done_callback(self._tasks.discard)

    async def _serve(self, agent: Streams) -> None:
        link = KeptLink(agent)
        self.links.append(link)

        async def hear(server: Streams) -> None:
            await self._pump(server, agent, link.said)
            link.has_ended = True

        try:
            link.server = await reach("127.0.0.1", self.port)
            await asyncio.gather(self._pump(agent, link.server, link.asked), hear(link.server))
        except OSError:
            pass  # the server has ended
        finally:
            agent.writer.close()
            if link.server:
                link.server.writer.close()
