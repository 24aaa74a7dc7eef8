"""How bodies are read and responses are sent: with headers that let the page load nothing from elsewhere, and an end for slow
clients."""

import asyncio
import json
from collections.abc import Awaitable
from typing import NoReturn

from aiohttp import web

from .problems import Problem

PIECE = 1 << 16
PATIENCE = 30.0  # seconds in which a client must take a piece
POLICY = ("default-src 'none'; script-src 'self'; style-src 'self'; img-src 'self'; connect-src 'self'; base-uri 'none'; "
          "form-action 'none'; frame-ancestors 'none'")
HEADERS = {"Content-Security-Policy": POLICY, "X-Content-Type-Options": "nosniff", "Referrer-Policy": "no-referrer",
           "Cross-Origin-Resource-Policy": "same-origin", "Cross-Origin-Opener-Policy": "same-origin"}
ZIPPED_FROM = 2_000  # bytes of a body that is worth compressing


class Cut(Exception):
    """The connection was cut, since the client takes nothing or there is no whole response for it."""


def json_response(told: dict, status: int = 200) -> web.Response:
    """A response that is JSON."""
    return web.Response(body=json.dumps(told).encode(), status=status, content_type="application/json", charset="utf-8")


def problem_response(status: int, says: str, again: int | None = None) -> web.Response:
    """A response that says why there is no answer."""
    response = json_response({"kind": "error", "status": status, "reason": says}, status)
    if again is not None:
        response.headers["Retry-After"] = str(again)
    return response


async def body_of(request: web.Request) -> bytes:
    """The body of a request, which must come in half a minute."""
    try:
        async with asyncio.timeout(PATIENCE):
            return await request.read()
    except TimeoutError:
        raise Problem(408, f"the body did not come within {PATIENCE:g} seconds") from None


async def send(request: web.Request, response: web.Response) -> None:
    """Sends a whole response. A client has half a minute, and for each 64 KiB half a minute more."""
    body = response.body if isinstance(response.body, bytes) else b""
    response.headers.update(HEADERS)
    if len(body) >= ZIPPED_FROM and "Content-Encoding" not in response.headers:
        response.enable_compression()
    await _within(request, _all(request, response), PATIENCE * (1 + len(body) // PIECE))


async def _all(request: web.Request, response: web.Response) -> None:
    await response.prepare(request)
    await response.write_eof()


async def write(request: web.Request, response: web.StreamResponse, piece: bytes) -> None:
    """Sends a piece of a response that comes piece by piece."""
    await _within(request, response.write(piece), PATIENCE)


async def write_end(request: web.Request, response: web.StreamResponse) -> None:
    """Says that the last piece was sent."""
    await _within(request, response.write_eof(), PATIENCE)


def cut(request: web.Request) -> NoReturn:
    """Ends the connection, so that the client knows that what it has isn't whole."""
    if request.transport is not None:
        request.transport.abort()
    raise Cut


async def _within(request: web.Request, sending: Awaitable[object], seconds: float) -> None:
    try:
        async with asyncio.timeout(seconds):
            await sending
    except TimeoutError:
        cut(request)
