"""Texts of PDDL as trees with places. To be read by scripts in launch/.

A byte is one letter here (Latin-1), so that an offset in the text is one in the file. Words are in small letters, as the
planner reads them.
"""
import bisect
import collections
import os
import pathlib
import re
import subprocess
import typing

TOKEN = re.compile(r";[^\n]*|[()]|[!-'*-:<-~]+")


class NoTree(Exception):
    """The text is no list of words and lists, at this offset."""

    def __init__(self, at):
        super().__init__(f"no list of words and lists, at the byte with offset {at}")
        self.at = at


class Tree:
    """A word, whose items are None, or a list, whose word is None; from `at` up to before `end` of the text."""

    def __init__(self, at, word=None):
        self.at = at
        self.word = word
        self.items = [] if word is None else None
        self.end = at + 1 if word is None else at + len(word)

    def head(self):
        """The word that a list begins with, else an empty text."""
        return self.items[0].word or "" if self.items else ""

    def words(self):
        """The words that a list has, without the lists in it."""
        return [it for it in self.items or [] if it.word is not None]

    def text(self):
        """The tree with single blanks."""
        return self.word if self.word is not None else "(" + " ".join(it.text() for it in self.items) + ")"


def place(text, at):
    """The line and the column of an offset, both from 1."""
    return text.count("\n", 0, at) + 1, at - text.rfind("\n", 0, at)


def line_starts(text):
    """The offsets at which the lines of a text begin."""
    return [0, *(it.end() for it in re.finditer("\n", text))]


class File:
    """A file of PDDL: its path, its text and its tree."""

    def __init__(self, path):
        self.path = path
        self.replace(pathlib.Path(path).read_bytes().decode("latin-1"))

    def replace(self, text):
        """Takes this text for the file's."""
        self.text, self.starts, self.tree = text, line_starts(text), read_tree(text)

    def place(self, at):
        """`path:line:column` of an offset."""
        line = bisect.bisect_right(self.starts, at)
        return f"{self.path}:{line}:{at - self.starts[line - 1] + 1}"

    def sections(self, head):
        """The sections with this head."""
        return [it for it in self.tree.items[2:] if it.head() == head]

    def name(self):
        """The word of `(domain NAME)` or `(problem NAME)`, as a tree."""
        return self.tree.items[1].items[1]


def read_tree(text):
    """The one list that a text is, between blanks and comments."""
    whole, opened = None, []
    for found in TOKEN.finditer(text):
        token, at = found[0], found.start()
        if token[0] == ";":
            continue
        if whole is not None and not opened or not opened and token != "(":
            raise NoTree(at)
        if token == ")":
            opened.pop().end = at + 1
            continue
        tree = Tree(at) if token == "(" else Tree(at, token.lower())
        if opened:
            opened[-1].items.append(tree)
        else:
            whole = tree
        if token == "(":
            opened.append(tree)
    if whole is None or opened:
        raise NoTree(len(text))
    return whole


def typed(items):
    """The words of a typed list, each with its type, which is `object` where none is told."""
    pairs, waiting, at = [], [], 0
    while at < len(items):
        if items[at].word == "-":
            pairs += [(it, items[at + 1].text() if at + 1 < len(items) else "object") for it in waiting]
            waiting = []
            at += 2
        else:
            waiting.append(items[at])
            at += 1
    return pairs + [(it, "object") for it in waiting]


def keys(action):
    """The parameters, the precondition and the effect of an action, by the words before them."""
    return {action.items[at].word: action.items[at + 1] for at in range(2, len(action.items) - 1, 2)}


class Literal(typing.NamedTuple):
    """An atom or `=`, whether it is wanted or added, the types of the variables there, and the `when` over an effect."""

    atom: Tree
    wanted: bool
    scope: typing.Mapping
    under: typing.Sequence = ()


class Action:
    """An action: its name, the types of its parameters, its conditions and its effects.

    Conditions and effects are literals with their scopes, which are the variables with their types: the last map of a scope
    has the parameters, and those before it the variables of each `forall`, the innermost first."""

    def __init__(self, section):
        parts = keys(section)
        self.name = section.items[1]
        self.parameters = typed(parts[":parameters"].items) if ":parameters" in parts else []
        scope = collections.ChainMap({it.word: kind for it, kind in self.parameters})
        self.conditions = list(literals(parts.get(":precondition"), scope))
        self.before = list(self.conditions)
        self.adds, self.deletes = [], []
        self.read_effect(parts.get(":effect"), scope)

    def read_effect(self, tree, scope, under=()):
        """Takes in an effect and the conditions in it."""
        if tree is None or not tree.items:
            return
        if tree.head() == "and":
            for item in tree.items[1:]:
                self.read_effect(item, scope, under)
        elif tree.head() == "forall":
            inner = {it.word: kind for it, kind in typed(tree.items[1].items)}
            self.read_effect(tree.items[2], scope.new_child(inner), under)
        elif tree.head() == "when":
            under = list(literals(tree.items[1], scope))
            self.conditions += under
            self.read_effect(tree.items[2], scope, under)
        elif tree.head() == "not":
            self.deletes.append(Literal(tree.items[1], False, scope, under))
        else:
            self.adds.append(Literal(tree, True, scope, under))


def literals(tree, scope):
    """The literals of a condition."""
    if tree is None or not tree.items:
        return
    if tree.head() == "and":
        for item in tree.items[1:]:
            yield from literals(item, scope)
    elif tree.head() == "not":
        yield Literal(tree.items[1], False, scope)
    else:
        yield Literal(tree, True, scope)


def pair_of(pair):
    """A word of a typed list and its type, as texts."""
    return pair[0].word, pair[1]


def listed(file, head):
    """The typed words of a section."""
    return [pair for section in file.sections(head) for pair in typed(section.items[1:])]


class Kinds:
    """The types and the objects of a domain and a problem."""

    def __init__(self, domain, problem):
        self.parents = dict(map(pair_of, listed(domain, ":types")))
        self.objects = dict(map(pair_of, listed(domain, ":constants") + listed(problem, ":objects")))
        self.spans = spans_of(self.parents)
        self.taken = sorted(self.spans[it][0] for it in set(self.objects.values()) if it in self.spans)

    def is_under(self, kind, above):
        """Whether a type is another one or lies under it."""
        if kind == above or above == "object":
            return True
        if kind not in self.spans or above not in self.spans:
            return False
        begin, end = self.spans[above]
        return begin <= self.spans[kind][0] < end

    def has_object(self, kind):
        """Whether an object fits a type."""
        if kind == "object" or kind not in self.spans:
            return bool(self.objects) if kind == "object" else kind in self.objects.values()
        begin, end = self.spans[kind]
        at = bisect.bisect_left(self.taken, begin)
        return at < len(self.taken) and self.taken[at] < end

    def fitting(self, kind):
        """The objects that fit a type."""
        return [name for name, its in self.objects.items() if self.is_under(its, kind)]


def spans_of(parents):
    """Numbers of the types from front to back, so that those under a type are the ones from its own up to before its end."""
    below = collections.defaultdict(list)
    for kind, above in parents.items():
        if kind != "object":
            below[above].append(kind)
    spans, number = {}, 0
    waiting = [(above, False) for above in list(below) if above == "object" or above not in parents]
    while waiting:
        kind, is_done = waiting.pop()
        if is_done:
            spans[kind] = spans[kind][0], number
        elif kind not in spans:
            spans[kind] = number, number
            number += 1
            waiting.append((kind, True))
            waiting += [(it, False) for it in below[kind]]
    return spans


class Ground:
    """What the planner's command ground comes to: its text and status, and where it lists the task its facts and calls.

    The variable DOKYREVA_PROGRAM is the path of the planner."""

    def __init__(self, domain, problem):
        words = [os.environ.get("DOKYREVA_PROGRAM", ""), "ground", domain, problem]
        ran = subprocess.run(words, capture_output=True, text=True, check=False)
        self.text, self.status = ran.stdout, ran.returncode
        self.is_known = self.status == 0
        self.paths = {"domain": domain, "problem": problem}
        self.facts, self.calls = set(), []
        has_calls = False
        for line in self.text.splitlines():
            has_calls = has_calls or line.startswith("; actions ")
            call = line.partition(" (")[2].rstrip(")")
            if call and has_calls:
                self.calls.append(call.split(" "))
            elif call:
                self.facts.add(f"({call})")

    def tell(self, paths=None):
        """Prints what the planner printed, and on standard error what it comes from, in files at these paths."""
        from messages.calls import tell_line  # (which reads this module)

        print(self.text, end="", flush=True)
        tell_line(self.text.rstrip("\n"), {**self.paths, **(paths or {})}, "ground")
