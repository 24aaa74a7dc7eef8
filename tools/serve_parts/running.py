"""How the service begins, takes a new region at SIGHUP, and ends at SIGTERM when all that has begun is answered."""

import asyncio
import contextlib
import os
import resource
import signal
import socket
import sys

from aiohttp import web

from .editions import Editions
from .problems import NoStart
from .service import Service
from .wanted import Wanted

LONGEST_LINE = 32_768  # bytes of a request's first line, and of a header
GRACE = 0.3  # seconds in which a request of a connection that is there already may still begin
DRAIN_SECONDS = 120.0  # in which requests that have begun are answered at the end


async def run(wanted: Wanted) -> None:
    """Runs the service until a signal ends it."""
    editions = Editions(wanted.sources, wanted.workers, wanted.limits)
    ending = asyncio.Event()
    loop = asyncio.get_running_loop()
    for number in (signal.SIGTERM, signal.SIGINT):
        loop.add_signal_handler(number, ending.set)
    await _until(ending, editions.open())
    try:
        await _serve(wanted, editions, ending)
    finally:
        await editions.close()


async def _until(ending: asyncio.Event, opening) -> None:
    """Waits for what is to be opened, unless the service is ended before."""
    tasks = [asyncio.ensure_future(opening), asyncio.create_task(ending.wait())]
    done, others = await asyncio.wait(tasks, return_when=asyncio.FIRST_COMPLETED)
    for task in others:
        task.cancel()
    with contextlib.suppress(asyncio.CancelledError):
        await asyncio.gather(*others)
    if tasks[0] not in done:
        raise NoStart("it was ended before it was ready")
    tasks[0].result()


async def _serve(wanted: Wanted, editions: Editions, ending: asyncio.Event) -> None:
    service = Service(editions, wanted.cells)
    runner = web.AppRunner(service.app, handle_signals=False, access_log=None, max_line_size=LONGEST_LINE,
                           max_field_size=LONGEST_LINE, keepalive_timeout=30)
    await runner.setup()
    assert runner.server is not None
    loop, renewals = asyncio.get_running_loop(), set[asyncio.Task]()

    def renew() -> None:
        task = asyncio.create_task(editions.renew())
        renewals.add(task)
        task.add_done_callback(renewals.discard)
    loop.add_signal_handler(signal.SIGHUP, renew)
    try:
        server = await loop.create_server(runner.server, wanted.host, wanted.port, backlog=1024)
    except OSError as error:
        raise NoStart(f"{wanted.host}:{wanted.port} can't be listened to: {error.strerror}") from error
    _say(wanted, server)
    await ending.wait()
    _notify("STOPPING=1")
    await _end(service, server)
    await runner.cleanup()
    for task in list(renewals):
        task.cancel()


async def _end(service: Service, server: asyncio.Server) -> None:
    """Takes no further connection, and waits until all that has begun is answered."""
    service.is_ending = True
    server.close()
    await asyncio.sleep(GRACE)
    with contextlib.suppress(TimeoutError):
        async with asyncio.timeout(DRAIN_SECONDS):
            while service.begun:
                await asyncio.sleep(0.02)


def _say(wanted: Wanted, server: asyncio.Server) -> None:
    """Tells people, and the system, that requests are answered from now on."""
    port = server.sockets[0].getsockname()[1]
    host = f"[{wanted.host}]" if ":" in wanted.host else wanted.host
    print(f"serve: http://{host}:{port}/ answers for {wanted.sources.region} with {wanted.workers} "
          f"{'worker' if wanted.workers == 1 else 'workers'}", file=sys.stderr, flush=True)
    _notify("READY=1")


def _notify(state: str) -> None:
    """Tells systemd, where it started the service."""
    path = os.environ.get("NOTIFY_SOCKET")
    if path:
        with socket.socket(socket.AF_UNIX, socket.SOCK_DGRAM) as to, contextlib.suppress(OSError):
            to.connect("\0" + path[1:] if path.startswith("@") else path)
            to.sendall(state.encode())


def raise_limit() -> None:
    """Lets the service have as many connections as the system allows."""
    _, most = resource.getrlimit(resource.RLIMIT_NOFILE)
    with contextlib.suppress(ValueError, OSError):
        resource.setrlimit(resource.RLIMIT_NOFILE, (most, most))
