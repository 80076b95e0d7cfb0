"""A whole companion over asyncio: it dials, asks, dials again, and tells where the television is."""
from __future__ import annotations

import asyncio
from typing import Any, AsyncGenerator, Awaitable, Callable, NamedTuple, Optional
from urllib.parse import urlsplit

from .clock import MachineClock
from .companion import PTS, Companion, Position, Property
from .faults import BeginAnew, Cause, OutOfRange

websockets: Any
try:
    import websockets
except ImportError:
    websockets = None

SECOND = 1_000_000_000
LONGEST_TEXT = 262_144
# The longest that a dial and a hang-up take, and the pause before the next dial, in seconds.
DIAL, HANG_UP, PAUSE = 5.0, 1.0, 0.5
# The first requests of a visit follow one another soon. The last one is never older: so a clock that is set is noticed.
BURST, SOON, OLDEST = 3, 0.1, 5 * SECOND


class Place(NamedTuple):
    """Where the television is at a reading of this machine's monotone clock. Where that isn't known, `position` is None
    and `cause` says why. Visits count from 1: one ends where CII closes, or the television contradicts itself."""

    reading: int
    position: Optional[Position]
    cause: Optional[str]
    visit: int


class Ended(Exception):
    """A visit is over, and why."""


def session(url: str) -> Any:
    return websockets.connect(url, open_timeout=DIAL, close_timeout=HANG_UP, ping_interval=None, max_size=LONGEST_TEXT)


def failures() -> tuple[type[BaseException], ...]:
    """With what a session ends that fails."""
    return OSError, asyncio.TimeoutError, websockets.WebSocketException


class Datagrams(asyncio.DatagramProtocol):
    """Hands on each datagram as it comes."""

    def __init__(self, visit: Visit):
        self.visit = visit

    def datagram_received(self, data: bytes, _: Any) -> None:
        self.visit.land(data)


class Visit:
    """A companion and its sessions, until the first thing that ends them."""

    def __init__(self, url: str, width: int, words: dict[str, Any]):
        self.url, self.width, self.clock = url, width, MachineClock()
        self.companion = Companion(clock=self.clock, **words)
        self.told = asyncio.Event()
        self.over: asyncio.Future[str] = asyncio.get_running_loop().create_future()
        self.tasks = [asyncio.create_task(self.serve(service)) for service in (self.cii, self.ts, self.wc)]

    async def end(self) -> None:
        """Hangs up. Where a dial is done at the very moment that it is cancelled, asyncio may lose that: so whoever
        hasn't ended then is cancelled again."""
        tasks = set(self.tasks)
        while tasks:
            for task in tasks:
                task.cancel()
            _, tasks = await asyncio.wait(tasks, timeout=DIAL)
        await asyncio.gather(*self.tasks, return_exceptions=True)
        self.companion.close()
        if not self.over.cancel():
            self.over.exception()

    async def serve(self, service: Callable[[], Awaitable[None]]) -> None:
        """Where a service ends the visit does."""
        try:
            await service()
        except (Ended, BeginAnew) as why:
            self.ended(str(why))
        except Exception as fault:
            if not self.over.done():
                self.over.set_exception(fault)

    def ended(self, why: str) -> None:
        if not self.over.done():
            self.over.set_result(why)

    def place(self, number: int) -> Place:
        """Where the television is now."""
        try:
            position = self.companion.position()
            return Place(position.reading, position, None, number)
        except (Cause, BeginAnew, OutOfRange) as cause:
            return self.nowhere(str(cause), number)

    def nowhere(self, cause: str, number: int) -> Place:
        return Place(self.clock.reading(), None, cause, number)

    # ---- the services

    async def cii(self) -> None:
        try:
            async with session(self.url) as texts:
                async for text in texts:
                    self.companion.cii(text)
                    self.told.set()
        except websockets.InvalidURI:
            raise
        except failures() as why:
            raise Ended(f"CII failed: {why or type(why).__name__}") from None
        raise Ended("CII closed")

    async def ts(self) -> None:
        """A session that closes is opened again. The wall clock's answers stay."""
        while True:
            url = await self.property(Property.TS_URL)
            try:
                async with session(url) as texts:
                    await texts.send(self.companion.setup())
                    async for text in texts:
                        self.companion.control(text)
            except websockets.InvalidURI:
                raise Ended(f"tsUrl is no address: {url[:80]}") from None
            except failures():
                pass
            self.companion.ts_closed()
            await asyncio.sleep(PAUSE)

    async def wc(self) -> None:
        """Asks again before the interval grows too wide, and a second later where it is that already."""
        socket = await self.dialled(await self.property(Property.WC_URL))
        try:
            for _ in range(BURST):
                socket.sendto(self.companion.ask())
                await asyncio.sleep(SOON)
            while True:
                await self.request_is_due()
                socket.sendto(self.companion.ask())
        finally:
            socket.close()

    async def dialled(self, url: str) -> asyncio.DatagramTransport:
        """A socket of the wall clock, once its host has an address."""
        try:
            host, port = urlsplit(url).hostname, urlsplit(url).port
        except ValueError:
            host = port = None
        if host is None or port is None:
            raise Ended(f"wcUrl is no address: {url[:80]}")
        loop = asyncio.get_running_loop()
        while True:
            try:
                return (await loop.create_datagram_endpoint(lambda: Datagrams(self), remote_addr=(host, port)))[0]
            except OSError:
                await asyncio.sleep(PAUSE)

    async def request_is_due(self) -> None:
        asked = self.clock.reading()
        await asyncio.sleep(1)
        while (until := self.until()) is not None:
            left = min(until - SECOND // 2, asked + OLDEST) - self.clock.reading()
            if left <= 0:
                return
            await asyncio.sleep(min(left / SECOND, PAUSE))

    def until(self) -> Optional[int]:
        try:
            return self.companion.until(self.width)
        except (Cause, BeginAnew):
            return None

    def land(self, data: bytes) -> None:
        """An answer by which the television contradicts itself ends the visit. Others may send datagrams too."""
        try:
            self.companion.land(data)
        except BeginAnew as why:
            self.ended(str(why))

    async def property(self, which: Property) -> str:
        """A property, once the television has told it."""
        while (found := self.companion.field(which)) is None:
            self.told.clear()
            await self.told.wait()
        return found


async def follow(url: str, *, every: float = 0.1, width: int = 5_000_000, selector: str = PTS, stem: str = "",
                 error: int = 128_000, precision: int = 1000) -> AsyncGenerator[Place, None]:
    """Where the television at this CII address is: a place each `every` seconds, until the loop that reads it ends.

    It asks as often as keeps the interval about `width` nanoseconds wide, once a second at most. Where a session
    closes or the television contradicts itself it dials again. It needs the package websockets, whose InvalidURI it
    raises where the address is none.
    """
    if websockets is None:
        raise ImportError("follow needs the package websockets, as Debian's python3-websockets")
    words, number = {"selector": selector, "stem": stem, "error": error, "precision": precision}, 0
    while True:
        number += 1
        visit = Visit(url, width, words)
        try:
            while not visit.over.done():
                yield visit.place(number)
                await asyncio.wait([visit.over], timeout=every)
            yield visit.nowhere(visit.over.result(), number)
        finally:
            await visit.end()
        await asyncio.sleep(PAUSE)
