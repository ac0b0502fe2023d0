"""What a refusal of the planner comes from, in one sentence with its place: for all scripts that show one."""
from messages.names import of_arity, of_duplicate, of_type, of_unknown
from messages.other import of_syntax, of_unsupported, open_call, open_notes
from messages.shape import of_shape
from messages.task import Declared
from messages.text import Source, Spot, tell, tree_of


class Files:
    """The files of a call by their names in a report (domain, problem, plan, proof, model), read where they are asked for."""

    def __init__(self, paths, called=None):
        self.paths, self.called, self.read = paths, called or {}, {}

    def get(self, which):
        """A file, or nothing where it is not there."""
        if which not in self.read:
            try:
                self.read[which] = Source(self.paths[which], self.called.get(which)) if which in self.paths else None
            except OSError:
                self.read[which] = None
        return self.read[which]


def calls_of(text):
    """The calls of a plan file as one list, whose items have the offsets that they have in the file."""
    tree = tree_of("(" + text + "\n)")
    return shift(tree) if tree else None


def shift(tree):
    """Takes one from all offsets."""
    waiting = [tree]
    while waiting:
        it = waiting.pop()
        it.at, it.end = it.at - 1, it.end - 1
        waiting += it.items or []
    return tree


def explained(files, kind, which, at, source):
    """The sentence on a fault in a file, and notes: each an offset of the same file or of the domain, and a sentence."""
    if kind == "syntax":
        at_end = at == len(source.text) and which in ("domain", "problem", "plan")
        notes = open_notes(source) if at_end else open_call(source, at) if which == "plan" else []
        return of_syntax(source, at, which), [("same", *it) for it in notes]
    if kind == "deep":
        return "the 65th list inside one another begins here, and 64 may be", []
    tree = calls_of(source.text) if which == "plan" else source.tree
    if tree is None:
        return "this is not taken", []
    spot = Spot(tree, at)
    if kind == "shape":
        return of_shape(spot, which, source), []
    if kind == "unsupported":
        return of_unsupported(spot), []
    if kind == "duplicate":
        sentence, first = of_duplicate(spot, source)
        return sentence, [("same", first, "it stands here first")] if first is not None else []
    declared = Declared(files.get("domain"), files.get("problem"))
    if kind == "unknown":
        return of_unknown(spot, which, declared), list(other_domain(files)) if which == "problem" else []
    if kind == "arity":
        sentence, first = of_arity(spot, which, declared)
        return sentence, [("domain", first.at, "it is declared here")] if first else []
    return of_type(spot, declared), []


def other_domain(files):
    """A note where the problem says that it is one of another domain."""
    domain, problem = files.get("domain"), files.get("problem")
    names = [it for source in (domain, problem) if source and source.tree for it in source.tree.items[1:] if it.head() in ("domain", ":domain")]
    words = [it.items[1] for it in names if len(it.items) > 1]
    if len(words) == 2 and words[0].word != words[1].word:
        yield "same", words[1].at, f"the problem is one of the domain '{words[1].word}', and the domain here is '{words[0].word}'"


def tell_fault(files, kind, which, at, proof="proof"):
    """Tells a refusal on standard error: the place, the line with a caret, the sentence, and notes. Whether the place is there. What a
    proof is to be is told: one of prove, LRAT, or a certificate of never."""
    source = files.get(which)
    if source is None or at > len(source.text):
        return False
    sentence, notes = explained(files, kind, proof if which == "proof" else which, at, source)
    tell(source, at, kind, sentence)
    for where, offset, text in notes:
        tell(source if where == "same" else files.get(where), offset, "note", text)
    return True
