"""Words that are not taken: which word, what may stand there, and what was perhaps meant. All of it is made of launch/help."""
import pathlib
import re

from messages.calls import launcher_says
from messages.text import nearest

HELP = pathlib.Path(__file__).resolve().parent.parent / "help"
SPAN = re.compile(r"([0-9]+) to ([0-9]+)\Z")
PLACES = {"NUMBER": "1 to 64", "KIND": "corridor|gripper"}


class Option:
    """An option: its name, what may stand for it, its default and its meaning."""

    def __init__(self, line):
        self.name, values, self.default, self.shown, self.meaning = re.split(r"  +", line.rstrip())
        self.values = "" if values == "-" else values

    def takes(self, value):
        """Whether a value is one that may stand for it."""
        return takes(self.values, value)


def takes(values, value):
    """Whether a value is within what may stand: a span of numbers, names parted by |, or anything."""
    span = SPAN.match(values)
    if span:
        return bool(re.fullmatch(r"0|[1-9][0-9]{0,9}", value)) and int(span[1]) <= int(value) <= int(span[2])
    if "|" in values:
        return value in values.split("|")
    return values == "" or value != ""


def told(values):
    """What may stand, in words."""
    return " or ".join(values.split("|"))


def all_options():
    """The options that several commands have, by their names."""
    return {it.name: it for it in map(Option, filter(None, (HELP / "options.txt").read_text().splitlines()))}


PLACES["HORIZON"] = all_options()["--max-horizon"].values


class Command:
    """The words of a command, as its help tells them."""

    def __init__(self, name):
        lines = (HELP / f"{name}.txt").read_text().splitlines()
        self.name, self.synopsis = name, lines[0]
        self.options, shared = {}, all_options()
        for line in lines[1:]:
            if line.startswith("--"):
                self.options[line.split()[0]] = Option(line)
            elif line.startswith("Options: "):
                self.options.update((it, shared[it]) for it in line.split()[1:])
        words = lines[0].split(" [")[0].split()[1:]
        self.endless = ".." in words
        self.places = [it for it in words if it != ".."]


def tell_refused(words, commands, called):
    """Tells what is wrong with words that the planner has not taken; commands are those that there are."""
    name = words[0] if words else ""
    if name not in commands:
        ask = nearest(name, commands) if name else None
        if ask:
            launcher_says(f"there is no command {name}: is it {ask}?")
        elif name:
            launcher_says(f"there is no command {name}")
        for it in unknown_options(words[1:]):
            launcher_says(it)
        launcher_says(f"all commands here are {', '.join(commands)}, help; {called} COMMAND --help tells the words of one")
        return
    command = Command(name)
    found = list(faults(command, words[1:]))
    for it in found:
        launcher_says(it)
    if not found:
        launcher_says("these words are not taken")
    launcher_says(f"the words are {called} {command.synopsis}; {called} {name} --help tells all of them")


def unknown_options(words):
    """Options that there are nowhere, of a command that is none."""
    known = all_options()
    for word in words:
        name = word.split("=", 1)[0]
        ask = nearest(name, known) if name[:2] == "--" and name not in known and len(name) > 2 else None
        if ask:
            yield f"there is no option {name}: is it {ask}?"


def faults(command, words):
    """A sentence for each word of a command that is not taken, and for those that are missing."""
    places, seen, at = [], set(), 0
    while at < len(words):
        word = words[at]
        at += 1
        if word == "--":
            places += words[at:]
            break
        if not word.startswith("--") or len(word) == 2:
            places.append(word)
            continue
        name, sign, value = word.partition("=")
        option = command.options.get(name)
        if option is None:
            yield no_option(command, name)
            meant = all_options().get(name) or command.options.get(nearest(name, command.options))
            at += bool(meant and meant.values and not sign and at < len(words) and words[at][:2] != "--")
            continue
        if name in seen:
            yield f"{name} stands twice"
        seen.add(name)
        if option.values == "":
            continue
        if not sign and at == len(words):
            yield f"{name} has no value: it takes {told(option.values)}"
            break
        value = value if sign else words[at]
        at += not sign
        if not option.takes(value):
            yield f"{name} takes {told(option.values)}, and '{value}' is not one of these"
    yield from of_places(command, places)


def no_option(command, name):
    """An option that the command does not take."""
    if name in all_options():
        return f"{command.name} takes no option {name}"
    ask = nearest(name, command.options)
    if ask:
        return f"there is no option {name}: is it {ask}?"
    return f"there is no option {name}: {command.name} takes {', '.join(command.options) or 'none'}"


def of_places(command, words):
    """Words that are missing or too many, and those that are none of what may stand in their place."""
    for name, word in zip(command.places, words):
        if name in PLACES and not takes(PLACES[name], word):
            yield f"{name} takes {told(PLACES[name])}, and '{word}' is not one of these"
    missing = command.places[len(words) :]
    if missing:
        yield f"{' and '.join(missing)} {'is' if len(missing) == 1 else 'are'} missing"
    elif len(words) > len(command.places) and not command.endless:
        yield f"'{words[len(command.places)]}' is a word too many"
    elif command.endless and len(words) > 17:
        yield f"{len(words) - 1} problems are named, and 16 may be"
