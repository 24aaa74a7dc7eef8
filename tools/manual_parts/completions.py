"""Completions of words for bash, zsh and fish, of what a program says of itself."""

import shlex

from .description import Command, Program, Row

# Words that name a file or a folder; of others there is nothing to offer.
FILES = {"OPL", "FEED", "REGION", "QUERIES", "CERTIFICATE", "HIERARCHY", "FILE", "BOOK"}


def _options(command: Command) -> list[str]:
    return [spelling for row in command.options for spelling in row.spellings()]


def _takes_file(row: Row) -> bool:
    return row.value() in FILES or row.name.strip("<>[]") in FILES


BASH = """\
# bash completion for {name}
_{name}() {{
    local word=${{COMP_WORDS[COMP_CWORD]}} before=${{COMP_WORDS[COMP_CWORD-1]}} options= files=
    COMPREPLY=()
    if [ "$COMP_CWORD" -lt {at} ]; then
        COMPREPLY=($(compgen -f -W "- --help --version" -- "$word"))
        return
    elif [ "$COMP_CWORD" -eq {at} ]; then
        COMPREPLY=($(compgen -W {names} -- "$word"))
        return
    fi
    case ${{COMP_WORDS[{at}]}} in
{cases}
    esac
    case $word in -*)
        COMPREPLY=($(compgen -W "$options" -- "$word"))
        return ;;
    esac
    case " $options " in *" $before "*)
        case " $files " in *" $before "*) ;; *) return ;; esac ;;
    esac
    COMPREPLY=($(compgen -f -- "$word"))
}}
complete -o filenames -F _{name} {name}
"""


def bash(program: Program) -> str:
    """A completion for bash."""
    cases = []
    for command in program.commands:
        files = [spelling for row in command.options if _takes_file(row) for spelling in row.spellings()]
        options = shlex.quote(" ".join(_options(command)))
        cases.append(f"    {command.name}) options={options} files={shlex.quote(' '.join(files))} ;;")
    names = [command.name for command in program.commands] + ["--help", "--version"]
    return BASH.format(name=program.name, at=_place(program), names=shlex.quote(" ".join(names)), cases="\n".join(cases))


def _place(program: Program) -> int:
    """Which word is the command: behind a book's name it is the second."""
    return 2 if program.name == "planbook" else 1


ZSH = """\
#compdef {name}
_{name}() {{
    local -a commands=(
{names}
    )
    if (( CURRENT <= {at} )); then _files; return; fi
    if (( CURRENT == {at} + 1 )); then _describe command commands; return; fi
    local command=$words[{at}+1]
    shift {at} words
    (( CURRENT -= {at} ))
    case $command in
{cases}
    esac
}}
_{name} "$@"
"""


def _zsh_spec(row: Row) -> list[str]:
    """A word or an option, as _arguments of zsh has them."""
    says = row.says.translate(str.maketrans({"'": "'\\''", "[": "\\[", "]": "\\]", ":": "\\:"}))
    files = "_files" if _takes_file(row) else " "
    if row.name.startswith("<"):
        return [f"':{row.name.strip('<>').lower()}:{files}'"]
    value = f":{row.value().lower()}:{files}" if row.value() else ""
    return [f"'{spelling}[{says}]{value}'" for spelling in row.spellings()]


def zsh(program: Program) -> str:
    """A completion for zsh."""
    quoted = str.maketrans({"'": "'\\''", ":": "\\:"})
    names = [f"        '{command.name}:{command.about.translate(quoted)}'" for command in program.commands]
    cases = []
    for command in program.commands:
        specs = [spec for row in command.options + command.arguments for spec in _zsh_spec(row)]
        cases.append(f"        {command.name}) _arguments {' '.join(specs)} ;;")
    return ZSH.format(name=program.name, at=_place(program), names="\n".join(names), cases="\n".join(cases))


def fish(program: Program) -> str:
    """A completion for fish."""
    begun = f"__fish_seen_subcommand_from {' '.join(command.name for command in program.commands)}"
    first = f"complete -c {program.name} -n 'not {begun}'"
    lines = [f"# fish completion for {program.name}"] + ([f"{first} -f"] if _place(program) == 1 else [])
    for command in program.commands:
        lines.append(f"{first} -a {command.name} -d {shlex.quote(command.about)}")
        lines += [f"complete -c {program.name} -n '__fish_seen_subcommand_from {command.name}' {_fish_option(row)}"
                  for row in command.options]
    return "\n".join(lines) + "\n"


def _fish_option(row: Row) -> str:
    names = [f"-l {name[2:]}" if name.startswith("--") else f"-s {name[1:]}" for name in row.spellings()]
    takes = ["-r"] if row.value() else []
    return " ".join(names + takes + ([] if _takes_file(row) else ["-f"]) + ["-d", shlex.quote(row.says)])
