"""Manual pages, of what a program says of itself."""

import ast
import pathlib
import subprocess
import textwrap

from .description import Command, Program, Row

STATUSES = [".TP", ".B 0", "All is written.", ".TP", ".B 2", "The words are not those of a command.", ".PP"]
ALSO = {"modeplan": "planbook", "planbook": "modeplan"}
PAGES = {"modeplan": "COMMANDS.md", "planbook": "BOOK.md"}


def text(words: str) -> str:
    """Words that roff takes for nothing but words, in lines of 80 bytes."""
    escaped = words.replace("\\", "\\e").replace("-", "\\-")
    lines = [part for line in escaped.splitlines()
             for part in textwrap.wrap(line, 78, break_long_words=False, break_on_hyphens=False)]
    return "\n".join("\\&" + line if line.startswith((".", "'")) else line for line in lines)


def example(words: str) -> list[str]:
    """An example, in its one line."""
    return [".EX", words.replace("\\", "\\e").replace("-", "\\-"), ".EE"] if words else []


def page(program: Program, date: str) -> str:
    """The manual page of a program, in section 1. `date` is that of its version, YYYY-MM-DD."""
    whole, name = program.whole, program.name
    about = whole.about.rstrip(".")
    lines = [f'.TH {name.upper()} 1 "{date}" "{name} {program.version}" "User Commands"', ".SH NAME",
             f"{name} \\- {text(about[0].lower() + about[1:])}", ".SH SYNOPSIS"]
    lines += [line for command in program.commands for line in (_usage(command.usage), ".br")][:-1]
    lines += [".SH DESCRIPTION", text(about + "."), ".SH COMMANDS"]
    for command in program.commands:
        lines += _command(command)
    lines += [".SH OPTIONS", *_rows(whole.options), ".SH EXIT STATUS", *STATUSES, f"docs/{PAGES[name]} has all others.",
              ".SH NOTES", text(whole.more), ".SH EXAMPLE", *example(whole.example),
              ".SH SEE ALSO", f".BR {ALSO[name]} (1)"]
    return "\n".join(lines) + "\n"


def _usage(usage: str) -> str:
    """A usage, with its first word as a name."""
    name, _, words = usage.partition(" ")
    return f".B {text(name)}\n{text(words)}"


def _command(command: Command) -> list[str]:
    """A command, its words and options, and its example."""
    lines = [f".SS {text(command.name)}", text(command.about.rstrip(".") + "."), ".PP", _usage(command.usage)]
    lines += _rows(command.arguments) + _rows([row for row in command.options if "--help" not in row.name])
    return [*lines, ".PP", *example(command.example)]


def _rows(rows: list[Row]) -> list[str]:
    return [line for row in rows for line in (".TP", f".B {text(row.name)}", text(row.says))]


def tool_page(path: pathlib.Path, version: str, date: str) -> str:
    """The page of a tool: its first sentence, and its help as it stands."""
    about = ast.get_docstring(ast.parse(path.read_text())) or ""
    helped = subprocess.run([path, "--help"], capture_output=True, text=True, check=False)
    name, first = f"modeplan-{path.name}", " ".join(about.removeprefix(f"{path.name} ").split()).split(". ")[0].rstrip(".")
    told = helped.stdout if helped.returncode == 0 else about
    lines = [("\\&" if line.startswith((".", "'")) else "") + line.replace("\\", "\\e").replace("-", "\\-")
             for line in told.splitlines()]
    return "\n".join([f'.TH {name.upper()} 1 "{date}" "modeplan {version}" "User Commands"', ".SH NAME",
                      text(name) + f" \\- {text(first[0].lower() + first[1:])}", ".SH DESCRIPTION", ".nf", *lines, ".fi",
                      ".SH SEE ALSO", ".BR modeplan (1)"]) + "\n"
