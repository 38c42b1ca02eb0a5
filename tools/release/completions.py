"""Completions for bash, zsh and fish: of the program by the table of docs/PROGRAM.md, of the commands of `ci/` by the options in their `--help`."""

from __future__ import annotations

import re

from .table import Command, plain


def word(name: str) -> str:
    return re.sub(r"\W", "_", name)


def bash(name: str, rows: list[Command]) -> str:
    """Completes the command's name, its options and then files."""
    names = " ".join(one.name for one in rows)
    cases = "\n".join(f'        {one.name}) options="{" ".join(one.options())}" ;;' for one in rows if one.options())
    return f"""# completion of {name} for bash
_{word(name)}() {{
    local current=${{COMP_WORDS[COMP_CWORD]}} options=
    if [ "$COMP_CWORD" = 1 ]; then
        COMPREPLY=($(compgen -W "{names}" -- "$current"))
        return
    fi
    case ${{COMP_WORDS[1]}} in
{cases}
    esac
    if [[ $current == -* ]]; then
        COMPREPLY=($(compgen -W "$options" -- "$current"))
    else
        COMPREPLY=($(compgen -f -- "$current"))
    fi
}}
complete -o filenames -F _{word(name)} {name}
"""


def zsh(name: str, rows: list[Command]) -> str:
    described = "\n".join(f"    '{one.name}:{plain(one.does).replace(chr(39), '')}'" for one in rows)
    cases = "\n".join(f"        {one.name}) compadd -- {' '.join(one.options())} ;;" for one in rows if one.options())
    return f"""#compdef {name}
local -a subcommands=(
{described}
)
if (( CURRENT == 2 )); then
    _describe command subcommands
elif [[ $words[CURRENT] == -* ]]; then
    case $words[2] in
{cases}
    esac
else
    _files
fi
"""


def quoted(text: str) -> str:
    return "'" + text.replace("\\", "\\\\").replace("'", "\\'") + "'"


def fish(name: str, rows: list[Command]) -> str:
    lines = [f"# completion of {name} for fish"]
    for one in rows:
        lines.append(f"complete -c {name} -n __fish_use_subcommand -f -a {one.name} -d {quoted(plain(one.does))}")
        lines += [f"complete -c {name} -n '__fish_seen_subcommand_from {one.name}' -l {option[2:]}" for option in one.options()]
    return "\n".join(lines) + "\n"


def options_of(help_text: str) -> list[str]:
    """The long options that a command of `ci/` names in its `--help`."""
    return sorted(set(re.findall(r"(?<![\w-])--[a-z][\w-]*", help_text)))


def bash_options(name: str, options: list[str]) -> str:
    return f"""_{word(name)}() {{
    local current=${{COMP_WORDS[COMP_CWORD]}}
    if [[ $current == -* ]]; then
        COMPREPLY=($(compgen -W "{' '.join(options)}" -- "$current"))
    else
        COMPREPLY=($(compgen -f -- "$current"))
    fi
}}
complete -o filenames -F _{word(name)} {name}
"""


def zsh_options(name: str, options: list[str]) -> str:
    return f"#compdef {name}\nif [[ $words[CURRENT] == -* ]]; then\n    compadd -- {' '.join(options)}\nelse\n    _files\nfi\n"


def fish_options(name: str, options: list[str]) -> str:
    return "".join(f"complete -c {name} -l {option[2:]}\n" for option in options)
