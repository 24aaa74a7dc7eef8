"""The service: which request is answered how, and how it begins and ends."""

import asyncio
import contextlib
import gzip
import logging
import pathlib
import time
from collections.abc import AsyncGenerator

from aiohttp import web

from . import asked, matrix, places, reach
from .editions import Edition, Editions
from .metrics import Metrics
from .problems import Problem
from .refusals import refusal
from .sending import HEADERS, Cut, body_of, cut, json_response, problem_response, send, write, write_end

log = logging.getLogger("serve")
HERE = pathlib.Path(__file__).parent
FILES = {".html": "text/html", ".css": "text/css", ".js": "text/javascript", ".svg": "image/svg+xml"}
LARGEST_BODY = 1 << 20
GONE = 499  # the status, in metrics, of requests whose client went away or took nothing
OTHER = "other"  # the path of requests that have none, in metrics


class Service:
    """Answers requests by the edition that is in use."""

    def __init__(self, editions: Editions, cells: int) -> None:
        self._editions, self._cells = editions, cells
        self._metrics = Metrics()
        self.is_ending = False
        self._tables = asyncio.Semaphore(matrix.AT_A_TIME)
        self.app = web.Application(middlewares=[self._guard], client_max_size=LARGEST_BODY)
        self._route()

    @property
    def begun(self) -> int:
        """How many requests are being answered."""
        return self._metrics.begun

    def _route(self) -> None:
        add = self.app.router.add_get
        for command in ("answer", "latest", "few"):
            add(f"/{command}", self._search(command))
        add("/profile", self._profile)
        add("/certificate", self._certificate)
        self.app.router.add_post("/matrix", self._matrix)
        add("/reach", self._reach)
        add("/stops", self._stops)
        add("/map", self._map)
        add(r"/streets/{row:-?\d{1,4}}/{column:-?\d{1,5}}", self._streets)
        add("/health", self._health)
        add("/metrics", self._tell_metrics)
        add("/api.json", self._file(HERE / "api.json", "application/json"))
        add("/", self._file(HERE / "page/index.html", "text/html"))
        for path in sorted((HERE / "page").iterdir()):
            if path.suffix in FILES:
                add(f"/{path.name}", self._file(path, FILES[path.suffix]))

    @web.middleware
    async def _guard(self, request: web.Request, handler) -> web.StreamResponse:
        """Sends what the handler answers, tells what went wrong, and counts."""
        begun, self._metrics.begun = time.monotonic(), self._metrics.begun + 1
        path = request.match_info.route.resource.canonical if request.match_info.route.resource else OTHER
        status = 500
        try:
            response = await self._answer(request, handler)
            status = response.status
            if self.is_ending:
                response.force_close()
            if isinstance(response, web.Response):
                await send(request, response)
            return response
        except (ConnectionError, Cut):
            status = GONE
            raise asyncio.CancelledError from None
        finally:
            self._metrics.begun -= 1
            self._metrics.note(path, status, time.monotonic() - begun)

    async def _answer(self, request: web.Request, handler) -> web.StreamResponse:
        try:
            return await handler(request)
        except Problem as problem:
            return problem_response(problem.status, problem.says, problem.again)
        except web.HTTPRequestEntityTooLarge:
            return problem_response(413, f"the body has more than {LARGEST_BODY} bytes")
        except web.HTTPException as error:
            response = problem_response(error.status, error.reason)
            response.headers.update({name: error.headers[name] for name in ("Allow",) if name in error.headers})
            return response
        except (ConnectionError, Cut, asyncio.CancelledError):
            raise
        except Exception:
            log.exception("a request failed: %s", request.path)
            return problem_response(500, "the service failed at this request")

    def _search(self, command: str):
        async def answer(request: web.Request) -> web.Response:
            return await self._told(asked.search(command, request.rel_url.raw_query_string))
        return answer

    async def _profile(self, request: web.Request) -> web.Response:
        self._demand("profile")
        return await self._told(asked.window(request.rel_url.raw_query_string))

    async def _told(self, what: asked.Asked) -> web.Response:
        """The planner's reply, as JSON; a refusal, or a search that was given up, has a status of its own."""
        async with self._editions.use() as edition:
            reply = await edition.pool.ask(what.line, what.is_reply)
            told = edition.teller.told(what, reply)
        return json_response({"edition": edition.number, **told}, 422 if told["kind"] in ("refused", "stopped") else 200)

    async def _certificate(self, request: web.Request) -> web.Response:
        """The certificate as the planner writes it, for whoever wants to check it; or why there is none."""
        what = asked.certificate(request.rel_url.raw_query_string)
        async with self._editions.use() as edition:
            reply = await edition.pool.ask(what.line, what.is_reply)
            if not reply.startswith(asked.CERTIFICATES):
                return json_response({"edition": edition.number, **edition.teller.told(what, reply)}, 422)
        return web.Response(body=reply, content_type="text/plain", charset="utf-8",
                            headers={"Content-Disposition": 'attachment; filename="certificate"'})

    async def _matrix(self, request: web.Request) -> web.StreamResponse:
        """The table of times, row by row as the planner writes it. What is wrong is told where no row has been sent."""
        self._demand("matrix")
        table = matrix.table_of(request.rel_url.raw_query_string, await body_of(request), self._cells)
        async with self._editions.use() as edition:
            pieces = self._pieces(edition, table)
            response = web.StreamResponse(headers={**HEADERS, "Content-Type": "text/tab-separated-values; charset=utf-8"})
            try:
                await self._send_rows(request, response, pieces)
            except Problem as problem:
                if not response.prepared:
                    raise
                log.warning("a table was cut short: %s", problem.says)
                cut(request)
            return response

    def _pieces(self, edition: Edition, table: matrix.Table) -> AsyncGenerator[bytes, None]:
        """The pieces of a table, of which few are made at the same time."""
        if self._tables.locked():
            raise Problem(503, "too many tables are being made; ask again in a moment", 5)
        return matrix.pieces(edition.sources, edition.files, table, self._tables)

    async def _reach(self, request: web.Request) -> web.Response:
        """How far one gets."""
        self._demand("matrix")
        async with self._editions.use() as edition:
            what = await asyncio.to_thread(reach.Reach, request.rel_url.raw_query_string, edition.atlas, self._cells)
            async with contextlib.aclosing(self._pieces(edition, what.table)) as pieces:
                rows = await what.rows(pieces)
            if refused := what.refused(rows):
                told = refusal(refused, edition.sources.bounds.places)
                return json_response({"kind": "refused", "edition": edition.number, **told}, 422)
            return json_response({"edition": edition.number, **await asyncio.to_thread(what.told, rows)})

    async def _send_rows(self, request: web.Request, response: web.StreamResponse, pieces: AsyncGenerator[bytes, None]) -> None:
        """Sends the pieces of a table; the response begins with the first of them."""
        async with contextlib.aclosing(pieces) as rows:
            async for piece in rows:
                if not response.prepared:
                    await response.prepare(request)
                await write(request, response, piece)
        await write_end(request, response)

    def _demand(self, command: str) -> None:
        edition = self._editions.current
        if edition is None or command not in edition.can:
            raise Problem(501, f"this planner has no command {command}")

    async def _stops(self, request: web.Request) -> web.Response:
        found = asked.parameters(request.rel_url.raw_query_string, ("near", "name", "most"), ("near", "name", "most"))
        if ("near" in found) == ("name" in found):
            raise Problem(400, "either near=LAT,LON or name=TEXT says which stops")
        most = places.count_of(found.get("most"))
        async with self._editions.use() as edition:
            if "near" in found:
                stops = await asyncio.to_thread(edition.places.near, *places.place_of(found["near"]), most)
            else:
                stops = await asyncio.to_thread(edition.places.named, found["name"], most)
        return json_response({"stops": stops})

    async def _map(self, request: web.Request) -> web.Response:
        """The region for the page, which is compressed already."""
        async with self._editions.use() as edition:
            is_packed = "gzip" in request.headers.get("Accept-Encoding", "")
            body = edition.map if is_packed else await asyncio.to_thread(gzip.decompress, edition.map)
        response = web.Response(body=body, content_type="application/json", charset="utf-8")
        if is_packed:
            response.headers["Content-Encoding"] = "gzip"
        return response

    async def _streets(self, request: web.Request) -> web.Response:
        async with self._editions.use() as edition:
            return json_response({"streets": edition.atlas.streets.chains(int(request.match_info["row"]),
                                                                          int(request.match_info["column"]))})

    async def _health(self, _: web.Request) -> web.Response:
        edition = self._editions.current
        alive = edition.pool.alive if edition else 0
        status = "ending" if self.is_ending else "ok" if alive else "no worker"
        told = {"status": status, "workers": alive, "edition": edition.number if edition else 0}
        return json_response(told, 200 if status == "ok" else 503)

    async def _tell_metrics(self, _: web.Request) -> web.Response:
        return web.Response(body=self._metrics.text(self._editions).encode(), content_type="text/plain", charset="utf-8")

    def _file(self, path: pathlib.Path, kind: str):
        """A file of the page, which is read once."""
        body = path.read_bytes()

        async def answer(_: web.Request) -> web.Response:
            return web.Response(body=body, content_type=kind, charset="utf-8", headers={"Cache-Control": "no-cache"})
        return answer
