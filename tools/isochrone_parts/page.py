"""The page of tools/isochrone: the map of the service's page, with all that it needs in one text."""

import html
import json
import pathlib
import re
from collections.abc import Iterator

from picture_parts.faults import shown

PAGE = pathlib.Path(__file__).resolve().parent.parent / "serve_parts/page"
MODULES = ("elements.js", "modes.js", "gestures.js", "bands.js", "map.js")
OWN = pathlib.Path(__file__).parent / "isochrone.js"


def text_of(title: str, about: str, data: dict) -> Iterator[str]:
    """The text of the page."""
    yield "<!DOCTYPE html>\n<html lang='en'>\n<head>\n<meta charset='utf-8'>\n"
    yield "<meta name='viewport' content='width=device-width, initial-scale=1'>\n<meta name='color-scheme' content='light dark'>\n"
    yield f"<link rel='icon' href='data:,'>\n<title>{_text(title)}</title>\n"
    yield f"<style>\n{(PAGE / 'style.css').read_text()}</style>\n</head>\n<body>\n"
    yield f"<header><h1>{_text(title)}</h1><p>{_text(about)}</p></header>\n<main class='alone'>\n<figure>\n"
    yield "<div id='tools' role='group' aria-label='Map'><span class='push'></span>"
    for key, sign, what in (("in", "+", "Closer"), ("out", "−", "Further away"), ("fit", "⤢", "All of it")):
        yield f"<button type='button' data-do='{key}' title='{what}' aria-label='{what}'>{sign}</button>"
    yield "</div>\n<canvas id='map' tabindex='0' role='img' aria-label='Map of streets by how soon one is there'></canvas>\n"
    yield "<figcaption id='legend'></figcaption>\n</figure>\n</main>\n"
    yield "<footer><p>Each street has the time of the destination that is nearest to its middle. Nothing of this page is proved; the times "
    yield "of the table that it was made from are what the planner answers for.</p></footer>\n"
    yield f"<script type='application/json' id='data'>{json.dumps(data).replace('<', chr(92) + 'u003c')}</script>\n"
    yield "<script>\n\"use strict\";\n"
    yield from map(_inlined, (*(PAGE / name for name in MODULES), OWN))
    yield "</script>\n</body>\n</html>\n"


def _inlined(path: pathlib.Path) -> str:
    """A module as a part of one script: a constant that has what it exports. What it imports stands before it."""
    text = re.sub(r'^import (\{.*\}) from "\./(\w+)\.js";', r"const \1 = \2;", path.read_text(), flags=re.M)
    exports = re.findall(r"^export (?:const|class|function) (\w+)", text, re.M)
    text = re.sub("^export ", "", text, flags=re.M)
    return f"const {path.stem} = (() => {{\n{text}return {{ {', '.join(exports)} }};\n}})();\n"


def _text(text: str) -> str:
    return html.escape(shown(text), quote=True)
