#!/usr/bin/env python3
"""The completions of the three shells, from the table that `keywrap options` prints.

usage: completions.py BASH ZSH FISH        writes these files"""

import os
import sys
from pathlib import Path

from options import ARGUMENTS, COMMANDS, OPTIONS, TOP, of

TEMPLATES = TOP / "packaging/templates"
BY = "# Written by generate/completions.py from the table of `keywrap options`."
# Added by clap.
HELP = "Print this message or the help of the given subcommand(s)"
COMMON = [("h", "help", "Print help"), ("V", "version", "Print version")]
NAMES = [*COMMANDS, "help"]


def excluded(option):
    """The words that do not go with it, and itself, which is not offered twice."""
    words = list(option.words)
    for other in OPTIONS:
        if other.name in option.conflicts:
            words += other.words
    return words


def excluded_by_others(option):
    return excluded(option)[len(option.words) :]


def lines(words, first, more="", last="", width=116):
    """The words on as many lines as they need. The first begins with `first`, each other one with `more`."""
    found = [first]
    for word in words:
        if len(found[-1]) + 1 + len(word) + len(last) > width:
            found[-1] += last
            found.append(more)
        if not found[-1].endswith(" "):
            found[-1] += " "
        found[-1] += word
    return found


def filled(template, **parts):
    """A template of packaging/templates, with these parts in the places of @NAME@."""
    text = (TEMPLATES / template).read_text()
    for name, part in {**parts, "by": BY}.items():
        text = text.replace(f"@{name}@", part)
    return text


def bash_offered(command):
    """The case of a command: its options."""
    words = [
        word for option in of(command) if not option.is_key for word in option.words
    ]
    parts = lines(words, '        options="$common', '        options+=" ')
    text = '"\n'.join(parts) + '"'
    if any(option.is_key for option in of(command)):
        text = f"""        # What is missing may be the HEX, which only the user knows.
        [ "${{word:0:1}}" != - ] || {text.strip()}"""
    return f"    {command})\n{text}\n        ;;"


def bash_pattern(options):
    """The options as a pattern."""
    return " | ".join(word for option in options for word in option.words)


def bash_gone(option):
    """The case of an option that was given: what is not offered any more."""
    return f"        {' | '.join(option.words)}) gone='{' '.join(excluded(option))}' ;;"


def bash():
    common = [f"-{short} --{name}" for short, name, _ in COMMON]
    with_file = [option for option in OPTIONS if option.is_file]
    with_iv = [option for option in OPTIONS if option.value == "initial value"]
    excluding = []
    for option in OPTIONS:
        others = excluded(option)
        if len(others) > 1:
            excluding.append(option)
    parts = {
        "common": " ".join(common),
        "with_file": bash_pattern(with_file),
        "with_iv": bash_pattern(with_iv),
        "cases": joined_lines(bash_offered, COMMANDS),
        "commands": " ".join(NAMES),
        "gone": joined_lines(bash_gone, excluding),
    }
    return filled("keywrap.bash.in", **parts)


def joined_lines(written, items):
    """Returns the texts that the function makes of the items, each on a line."""
    return "\n".join(map(written, items))


def described_commands():
    """The commands with what they do, and `help`."""
    return [*COMMANDS.items(), ("help", HELP)]


ZSH_VALUES = {
    None: "",
    "KEK file": ":KEK file:_files",
    "file": ":{} file:_files",
    "initial value": ":16 hex digits: ",
}


def zsh_variable(option):
    return option.name.replace("-", "_")


def zsh_spec(option):
    """The argument of _arguments for an option."""
    if option.is_key:
        return f"'1:{option.about}: '"
    value = ZSH_VALUES[option.value].format(option.name)
    about = f"[{option.about}]{value}"
    if option.short:
        words = " ".join(option.words)
        return f"'({words})'{{-{option.short}+,--{option.name}=}}'{about}'"
    others = excluded_by_others(option)
    excludes = f"({' '.join(others)})" if others else ""
    return f"'{excludes}--{option.name}{about}'"


def zsh_case(command):
    variables = [f"${zsh_variable(option)}" for option in of(command)]
    first = f"    {command}) _arguments $common"
    return " \\\n".join(lines(variables, first, "        ")) + " ;;"


def zsh_described(command):
    name, about = command
    return f"        '{name}:{about}'"


def zsh_common(option):
    short, name, about = option
    return f"'(- *)'{{-{short},--{name}}}'[{about}]'"


def zsh_local(option):
    return f"    local -a {zsh_variable(option)}=({zsh_spec(option)})"


def zsh():
    return filled(
        "_keywrap.in",
        described=joined_lines(zsh_described, described_commands()),
        common=" ".join(map(zsh_common, COMMON)),
        specs=joined_lines(zsh_local, ARGUMENTS),
        cases=joined_lines(zsh_case, COMMANDS),
    )


def fish_entry(option):
    condition = f"__keywrap_is {' '.join(option.commands)}"
    others = excluded_by_others(option)
    if others:
        condition += f"; and __keywrap_lacks {' '.join(others)}"
    words = f"-l {option.name}"
    if option.short:
        words = f"-s {option.short} {words}"
    if option.is_file:
        words += " -rF"
    elif option.value:
        words += " -x"
    return f"complete -c keywrap -n '{condition}' {words} \\\n    -d '{option.about}'"


def fish_described(command):
    name, about = command
    condition = "__fish_use_subcommand"
    return f"complete -c keywrap -n {condition} -a {name} \\\n    -d '{about}'"


def fish_common(option):
    short, name, about = option
    words = f"-s {short} -l {name} -d '{about}'"
    return f"complete -c keywrap {words} -n 'not __keywrap_is help'"


def fish():
    return filled(
        "keywrap.fish.in",
        common=joined_lines(fish_common, COMMON),
        described=joined_lines(fish_described, described_commands()),
        commands=" ".join(NAMES),
        entries=joined_lines(fish_entry, OPTIONS),
    )


if __name__ == "__main__":
    os.umask(0o022)
    for written, path in zip((bash, zsh, fish), map(Path, sys.argv[1:]), strict=True):
        path.parent.mkdir(parents=True, exist_ok=True)
        path.write_text(written())
