"""Places in a text: the line, the source line with a caret, and the trees that lead to an offset."""
import bisect
import pathlib
import re
import sys

from pddl import NoTree, line_starts, read_tree

WIDE, BEFORE, PART = 100, 60, 130
ROOT = pathlib.Path(__file__).resolve().parents[2]


def called(command):
    """How a command is called here: in a checkout, or installed."""
    return f"{'./' if (ROOT / 'crates').is_dir() else ''}dokyreva {command}"


class Source:
    """A file by its path, a byte a letter, with the tree that it is where it is one."""

    def __init__(self, path, called=None):
        self.path = called or path
        self.text = pathlib.Path(path).read_bytes().decode("latin-1")
        self.starts = line_starts(self.text)
        self.tree = tree_of(self.text)

    def place(self, at):
        """The line and the column of an offset, both from 1."""
        line = bisect.bisect_right(self.starts, at)
        return line, at - self.starts[line - 1] + 1

    def line(self, number):
        """The text of a line."""
        end = self.starts[number] - 1 if number < len(self.starts) else len(self.text)
        return self.text[self.starts[number - 1] : end]

    def where(self, at):
        """`line N, column M` of an offset."""
        line, column = self.place(at)
        return f"line {line}, column {column}"

    def sections(self, head):
        """The sections with this head, of a text that is a tree."""
        return [it for it in (self.tree.items if self.tree else [])[1:] if it.head() == head]


def tree_of(text):
    """The tree of a text, or nothing where it is none."""
    try:
        return read_tree(text)
    except (NoTree, IndexError):
        return None


def shown(text):
    """What a terminal may be given of a text."""
    text = re.sub("[\x00-\x08\x0b-\x1f\x7f]", "?", text)
    return re.sub("\xc2[\x80-\x9f]", "??", text)


def padding(text):
    """Blanks as wide as a text."""
    return re.sub("[^\t]", " ", re.sub("[\x80-\xbf]", "", text))


def path_shown(path):
    """A path as a message names it."""
    return path if path.isprintable() else repr(path)


def say(line):
    """One line on standard error, a letter a byte."""
    sys.stderr.buffer.write(line.encode("latin-1", "replace") + b"\n")
    sys.stderr.buffer.flush()


def as_bytes(text):
    """A text of this program, as the letters that its bytes are."""
    return text.encode("utf-8", "surrogateescape").decode("latin-1")


def tell(source, at, kind, sentence):
    """A fault or a note: its place as editors read it, and what it is; of a fault the source line with a caret too."""
    line, column = source.place(at)
    say(f"{as_bytes(path_shown(source.path))}:{line}:{column}: {kind}: {sentence}")
    if kind == "note":
        return
    text = source.line(line)
    first = column - BEFORE if column > WIDE else 1
    part = text[first - 1 : first - 1 + PART]
    front, back = ".. " if first > 1 else "", " .." if first - 1 + PART < len(text) else ""
    say(f"  {front}{shown(part)}{back}")
    say(f"  {padding(front)}{padding(text[first - 1 : column - 1])}^")


class Spot:
    """What stands at an offset of a tree: the trees that lead to it, the outermost first, and the place of each in the one before."""

    def __init__(self, tree, at):
        self.path, self.places = [tree], [0]
        while self.path[-1].at != at and self.path[-1].items:
            items = self.path[-1].items
            place = bisect.bisect_right([it.at for it in items], at) - 1
            if place < 0 or items[place].end <= at:
                break
            self.path.append(items[place])
            self.places.append(place)

    @property
    def item(self):
        """What stands there."""
        return self.path[-1]

    @property
    def parent(self):
        """The list in which it stands."""
        return self.path[-2] if len(self.path) > 1 else None

    @property
    def place(self):
        """Its place in that list, from 0."""
        return self.places[-1]


def nearest(word, names):
    """The name that is nearest to a word by letters put in, left out, exchanged or turned about, where at most a third and one more
    differ, and not all."""
    best, found = len(word) / 3 + 1, None
    for name in names:
        far = distance(word, name)
        if 0 < far <= best and far < len(word.lstrip("?:-")):
            best, found = far - 0.1, name
    return found


def distance(one, other):
    """How many letters have to be put in, left out, exchanged or turned about with their neighbour."""
    before, now = None, list(range(len(other) + 1))
    for i, a in enumerate(one, 1):
        old, before, now = before, now, [i]
        for j, b in enumerate(other, 1):
            cost = min(now[j - 1] + 1, before[j] + 1, before[j - 1] + (a != b))
            if old and j > 1 and a == other[j - 2] and one[i - 2] == b:
                cost = min(cost, old[j - 2] + 1)
            now.append(cost)
    return now[-1]


def meant(word, names, form="did you mean '{}'?"):
    """The end of a sentence that asks for the nearest name; nothing where none is near."""
    name = nearest(word, names)
    return ": " + form.format(name) if name else ""
