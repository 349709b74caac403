"""The synopsis of the manual page, in mdoc, from the table that `keywrap options` prints."""

from options import ARGUMENTS, COMMANDS, of

VALUES = {
    None: "",
    "KEK file": " Ar file",
    "file": " Ar file",
    "initial value": " Ar hex",
}


def groups(options, joined):
    """The options in groups, so that no two of different groups are joined, in the order of the table."""
    left = list(options)
    found = []
    while left:
        group = [left.pop(0)]
        for option in group:
            group += [other for other in left if joined(option, other)]
            left = [other for other in left if other not in group]
        found.append(sorted(group, key=ARGUMENTS.index))
    return found


def excludes(one, other):
    return other.name in one.conflicts


def one_option(option, needing):
    """An option, and in brackets those that are refused without it."""
    words = f"Fl -{option.name}{VALUES[option.value]}"
    if option.short:
        words = f"Fl {option.short} | {words}"
    for other in needing:
        if option.name in other.needs:
            words += f" Oo {one_option(other, [])} Oc"
    return words


def written(options, needing):
    """Options that exclude each other are alternatives. Others follow each other, each in brackets."""
    if len(options) == 1:
        return one_option(options[0], needing)
    apart = groups(options, excludes)
    if len(apart) > 1:
        return " ".join(f"Oo {written(group, needing)} Oc" for group in apart)
    ways = groups(options, lambda one, other: not excludes(one, other))
    ways.sort(key=len)
    return " | ".join(written(way, needing) for way in ways)


def command_lines(command):
    """The KEKs, the other options with those of files last, and the argument without a name."""
    yield f".Nm\n.Cm {command}"
    for option in of(command):
        if option.value == "KEK file":
            yield f".{one_option(option, [])}"
    others = [
        option for option in of(command) if option.value not in ("KEK file", "key")
    ]
    needing = [option for option in others if option.needs]
    found = groups([option for option in others if not option.needs], excludes)
    found.sort(key=lambda group: group[0].value == "file")
    for group in found:
        yield f".Op {written(group, needing)}"
    for option in of(command):
        if option.is_key:
            yield f".Ar {option.name}"


def synopsis():
    lines = [line for command in COMMANDS for line in command_lines(command)]
    return "\n".join(
        [*lines, ".Nm\n.Cm help\n.Op Ar command", ".Nm\n.Fl -help | Fl -version"]
    )
