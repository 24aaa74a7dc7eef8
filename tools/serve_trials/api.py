"""Trials of the API: each response is as /api.json says, and each block is the one that the planner writes without a service."""

import json
import pathlib

import jsonschema

from .bench import EXAMPLES, TOOLS, Reply, Served, demand, expected, path_of

OPENAPI = "/usr/share/openapi-specification/schemas/v3.0/schema.json"  # of Debian's openapi-specification
ROADS = ("foot", "bike", "car")
BODIES = (b"", b"[]", b"{}", b'{"from": [], "to": ["n1"]}', b'{"from": ["n1\\nn2"], "to": ["n1"]}', b'{"from": [1], "to": [2]}',
          b"[" * 100_000, b'{"from": ["#"], "to": ["n1"]}', b'{"from": ["n1"], "to": [""]}', b"\xff")  # no tables
WALK = "n1 n3 20240304 08:00:00 foot"


class Description:
    """What /api.json says of responses."""

    def __init__(self, text: bytes) -> None:
        self._api = json.loads(text)
        self.paths = self._api["paths"]
        self._schemas = _without_nullable({"components": self._api["components"]})

    def check_itself(self) -> bool:
        """Looks that it is OpenAPI 3, where its schema is installed."""
        if not pathlib.Path(OPENAPI).exists():
            return False
        jsonschema.Draft4Validator(json.loads(pathlib.Path(OPENAPI).read_text())).validate(self._api)
        return True

    def check(self, path: str, method: str, reply: Reply) -> None:
        """Looks that the response is one that the path has."""
        responses = self._api["paths"][path][method]["responses"]
        demand(str(reply.status) in responses, f"{path} has no status {reply.status}: {reply.body[:300]!r}")
        content = responses[str(reply.status)]["content"]
        kind = reply.headers["Content-Type"].partition(";")[0]
        demand(kind in content, f"{path} is no {kind}")
        if kind == "application/json":
            schema = {**_without_nullable(content[kind]["schema"]), **self._schemas}
            try:
                jsonschema.Draft4Validator(schema).validate(reply.json())
            except jsonschema.ValidationError as error:
                demand(False, f"{path}: {error.message[:300]} at {list(error.absolute_path)}")


def _without_nullable(schema):
    """The schema as JSON Schema has it, where null is a type."""
    if isinstance(schema, list):
        return [_without_nullable(part) for part in schema]
    if not isinstance(schema, dict):
        return schema
    plain = {key: _without_nullable(part) for key, part in schema.items() if key != "nullable"}
    return {"anyOf": [plain, {"type": "null"}]} if schema.get("nullable") is True else plain


def check_journey(told: dict, line: str) -> None:
    """Looks that the legs hang together, and tell the journey's word, its start and its end."""
    legs = told["legs"]
    if legs:
        demand(legs[0]["departure"] == told["depart"] and legs[-1]["arrival"] == told["arrive"], f"{line}: the ends of its legs")
    for one, other in zip(legs, legs[1:]):
        demand((one["to"], one["arrival"]) == (other["from"], other["departure"]), f"{line}: legs that follow each other")
    for leg in legs:
        ends = [[node["lon"], node["lat"]] for node in (leg["from"], leg["to"])]
        demand([leg["coordinates"][0], leg["coordinates"][-1]] == ends, f"{line}: the coordinates of its legs")
        demand((leg["trip"] is not None) == (leg["mode"] not in (*ROADS, "link", "wait")), f"{line}: trips of rides alone")
    letters: list[str] = []
    for leg in legs:
        if leg["mode"] not in ("link", "wait") and not (leg["mode"] in ROADS and letters[-1:] == [leg["mode"]]):
            letters.append(leg["mode"])
    demand(letters == told["word"], f"{line}: {letters} is not its word {told['word']}")


def try_example(program: str, name: str, description: Description) -> int:
    """Asks all queries of an example."""
    blocks = expected(name)
    with Served(program, EXAMPLES / name / "region") as service:
        for line, block in blocks.items():
            reply = service.get(path_of("answer", line))
            description.check("/answer", "get", reply)
            told = reply.json()
            demand(told["block"] == block, f"{name}: {line}: {told['block']}")
            kinds = {"no journey": "none", "refused": "refused"}
            body = block.split("\n")[1]
            kind = kinds.get(body if body == "no journey" else body.partition(" ")[0], "journey")
            demand(told["kind"] == kind and reply.status == (422 if kind == "refused" else 200), f"{name}: {line}: {reply.status}")
            if kind == "journey":
                check_journey(told, line)
    return len(blocks)


def try_paths(service: Served, description: Description) -> None:
    """Asks each path, and looks at what it says."""
    for path in ("/map", "/health", "/metrics", "/api.json"):
        description.check(path, "get", service.get(path))
    description.check("/streets/{row}/{column}", "get", service.get("/streets/-4800/1100"))
    for path in ("/stops?name=a", "/stops?near=48.0,11.0&most=3"):
        description.check("/stops", "get", service.get(path))
    for command in ("latest", "few"):
        reply = service.get(path_of(command, WALK))
        description.check(f"/{command}", "get", reply)
        for journey in reply.json().get("journeys", [reply.json()]):
            check_journey(journey, f"{command} {WALK}")
    for kind, head in (("answer", b"modeplan certificate 1\n"), ("latest", b"modeplan late 1\n")):
        reply = service.get(path_of("certificate", WALK, kind=kind))
        description.check("/certificate", "get", reply)
        demand(reply.body.startswith(head) and reply.body.endswith(b"\nend\n"), f"a certificate: {reply.body[:100]!r}")
    reply = service.get(path_of("certificate", WALK.replace("n3", "n999999")))
    description.check("/certificate", "get", reply)
    demand(reply.status == 422 and reply.json()["parameter"] == "to", "a certificate that is refused")
    for path in ("/", "/main.js", "/style.css", "/icon.svg"):
        reply = service.get(path)
        demand(reply.status == 200 and "unsafe" not in reply.headers["Content-Security-Policy"], f"{path}: its policy")


def try_each_is_there(service: Served, description: Description) -> None:
    """Each path that is described is one, and takes no other method."""
    for path, methods in description.paths.items():
        for method in ("GET", "POST"):
            status = service.send(method, path.replace("{row}", "1").replace("{column}", "1")).status
            demand((status == 405) == (method.lower() not in methods) and status != 404, f"{method} {path}: {status}")
    demand(service.get("/nowhere").status == 404, "a path that is none")


def try_can(service: Served, description: Description) -> list[str]:
    """Asks for tables and profiles where the planner can."""
    can = service.get("/map").json()["can"]
    reply = service.get(path_of("profile", WALK, window="01:00:00"))
    if "profile" in can:
        description.check("/profile", "get", reply)
        demand(reply.status == 200, f"a profile: {reply.body[:200]!r}")
    else:
        demand(reply.status == 501, "a planner without profiles")
    body = json.dumps({"from": ["n1", "n2"], "to": ["n3", "n999999", "n1"]}).encode()
    path = "/matrix?date=20240304&time=08:00:00&expr=foot"
    reply = service.send("POST", path, body)
    if "matrix" not in can:
        demand(reply.status == 501, "a planner without tables")
        return can
    description.check("/matrix", "post", reply)
    demand(reply.status == 200, f"a table: {reply.body[:300]!r}")
    rows = [line.split("\t") for line in reply.body.decode().split("\n")[:-1]]
    demand([row[:2] for row in rows] == [[a, b] for a in ("n1", "n2") for b in ("n3", "n999999", "n1")], f"the rows of a table: {rows}")
    demand([row[2] for row in rows[:3]] == ["106572", "refused to", "0"], f"the cells of a table: {rows}")
    for other in BODIES:
        reply = service.send("POST", path, other)
        description.check("/matrix", "post", reply)
        demand(reply.status == 400, f"{other[:40]!r}: {reply.status}")
    many = json.dumps({"from": ["n1"] * 500, "to": ["n1"] * 500}).encode()
    demand(service.send("POST", path, many).status == 413, "a table of too many cells")
    demand(service.send("POST", path, b" " * (2 << 20)).status == 413, "a body of two MiB")
    return can


def run(program: str) -> str:
    description = Description((TOOLS / "serve_parts/api.json").read_bytes())
    checked = description.check_itself()
    count = sum(try_example(program, name, description) for name in ("foot-town", "bike-and-park", "make-region", "town"))
    with Served(program, EXAMPLES / "foot-town/region", "--workers", "1") as service:
        try_paths(service, description)
        try_each_is_there(service, description)
        can = try_can(service, description)
    told = "api.json is OpenAPI 3" if checked else f"api.json was not checked, since {OPENAPI} is not there"
    return f"api: {count} answers are those of the examples; {told}; the planner can {', '.join(['answer', *can])}"
