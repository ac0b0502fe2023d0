"""The words of a call, by the table of options that stands in its help."""
import collections
import os
import re

# An option: its name, what may stand for it, and what stands for it by itself.
Option = collections.namedtuple("Option", "name may default")


class Usage(Exception):
    """The words are not taken, and why; empty where help is asked for with no more to say."""


def table(path):
    """The options of a help text, by name."""
    found = {}
    with open(path, encoding="utf-8") as lines:
        for line in lines:
            if line.startswith("--"):
                name, may, default = re.split(r"  +", line)[:3]
                found[name] = Option(name, may, default)
    return found


def key(name):
    """The name of an option as one of a field."""
    return name[2:].replace("-", "_")


def value(option, text):
    """What an option is set to by a text; Usage where that may not be."""
    numbers = re.fullmatch(r"(\d+) to (\d+)", option.may)
    if numbers:
        least, most = map(int, numbers.groups())
        if not re.fullmatch(r"0|[1-9]\d{0,9}", text) or not least <= int(text) <= most:
            raise Usage(f"{option.name} takes {option.may}")
        return int(text)
    if "|" in option.may and text not in option.may.split("|"):
        raise Usage(f"{option.name} takes {option.may.replace('|', ' or ')}")
    return text


def read(words, count, path):
    """The words that are no options, of which so many have to be there, and the options as fields."""
    options, plain, given = table(path), [], {}
    words = collections.deque(words)
    while words:
        word = words.popleft()
        if not word.startswith("--") or word == "--":
            plain.append(word)
            continue
        name, equals, text = word.partition("=")
        if name not in options:
            raise Usage(f"there is no option {name}: the options are {', '.join(options)}")
        option = options[name]
        if key(name) in given:
            raise Usage(f"{name} stands twice")
        if option.may == "-":
            if equals:
                raise Usage(f"{name} takes no value")
            given[key(name)] = True
            continue
        if not equals:
            if not words:
                raise Usage(f"{name} has no value")
            text = words.popleft()
        given[key(name)] = value(option, text)
    if len(plain) != count:
        raise Usage("")
    for option in options.values():
        given.setdefault(key(option.name), standing(option))
    return plain, given


def standing(option):
    """What stands for an option that is not given."""
    if option.may == "-" or option.default == "-":
        return None
    return value(option, option.default)


def range_of(text):
    """A range A-B of horizons, or one horizon, as its first and its last."""
    found = re.fullmatch(r"(0|[1-9]\d{0,2})(?:-(0|[1-9]\d{0,2}))?", text)
    first, last = (int(found[1]), int(found[2] or found[1])) if found else (1, 0)
    if not 0 <= first <= last <= 255:
        raise Usage("--horizons takes A-B, 0 to 255")
    return first, last


def command(text, path):
    """The words of an outside program, parted as a shell parts them, with its path; None where there is no such program."""
    import shlex  # (it takes longer to read than a short call)
    try:
        words = shlex.split(text)
    except ValueError as error:
        raise Usage(f"{text}: {error}") from error
    if not words:
        raise Usage("a program's words are missing")
    found = which(words[0], path)
    return [found, *words[1:]] if found else None


def which(name, path):
    """The path of a program."""
    if "/" in name:
        return os.path.abspath(name) if os.access(name, os.X_OK) and os.path.isfile(name) else None
    for folder in path.split(os.pathsep):
        at = os.path.join(folder or ".", name)
        if os.access(at, os.X_OK) and os.path.isfile(at):
            return os.path.abspath(at)
    return None
