"""What a domain and a problem declare, as far as they can be read, with the places; for messages of files that are refused."""
from pddl import keys, typed


def names_in(section):
    """The typed words of a section or list, each with its type; lists among them are left out."""
    pairs, waiting, at, items = [], [], 0, section.items[1:]
    while at < len(items):
        it = items[at]
        if it.word == "-" and at + 1 < len(items):
            pairs += [(name, items[at + 1].text()) for name in waiting]
            waiting, at = [], at + 1
        elif it.word:
            waiting.append(it)
        at += 1
    return pairs + [(name, "object") for name in waiting]


class Declared:
    """Types, objects, predicates and actions of two files, by their names."""

    def __init__(self, domain, problem):
        self.domain, self.problem = domain, problem
        self.types = {it.word: kind for it, kind in self.listed(domain, ":types")}
        self.objects = {it.word: kind for it, kind in self.listed(domain, ":constants") + self.listed(problem, ":objects")}
        self.predicates = {it.head(): it for section in sections(domain, ":predicates") for it in section.items[1:] if it.head()}
        self.actions = {it.items[1].word: it for it in sections(domain, ":action") if len(it.items) > 1 and it.items[1].word}

    def listed(self, source, head):
        """The typed words of the sections with this head."""
        return [pair for section in sections(source, head) for pair in names_in(section)]

    def parameters(self, action):
        """The parameters of an action with their types."""
        value = keys(action).get(":parameters")
        return typed(value.items) if value is not None and value.items else []


def sections(source, head):
    """The sections with this head, of a file that may be missing or no tree."""
    return source.sections(head) if source else []
