#!/usr/bin/env python3
"""without_costs.py DOMAIN PROBLEM FOLDER, run by dokyreva as its command without-costs

Writes a domain and a problem without their action costs into a folder, under their names. What is taken away is overwritten
by blanks, so that all else stands at the same line, column and offset. Each thing that is taken away is a line
`path:line:column: took away ..` on standard output.

The form is that of the requirement :action-costs of PDDL 3.1: functions whose values are numbers; in effects
`(increase (total-cost) N)` with a number or one of the functions; in :init the values, none of them negative, and
`(= (total-cost) 0)`; and the metric `minimize (total-cost)`. Anything else that has to do with numbers is refused, and
so is a call that can be executed by what `ground` lists and whose cost has no value: then costs decide what can be executed.
Of files in this form, whether there is a plan is not changed. Where the planner meets a limit, that each cost has a value
is not known, which a line says.

Statuses: 0 both files are written, also where nothing was taken away; 1 not of this form, and a line on standard error tells
where; 3, 5 the planner refuses a file or cannot read it, and its line is printed; 6 the files cannot be written; 7 the words
are not taken; 70 the planner does not run. But for 0 nothing is written.
"""
import itertools
import pathlib
import re
import sys
import tempfile

sys.dont_write_bytecode = True
from keepfile import fresh_file
from pddl import File, Ground, Kinds, NoTree, keys, typed

NUMBER = re.compile(r"[0-9]+(\.[0-9]*)?\Z|\.[0-9]+\Z")
CHANGES = {"increase", "decrease", "assign", "scale-up", "scale-down"}
COMPARISONS = {"<", ">", "<=", ">="}


class OtherForm(Exception):
    """Why files have not the form, with the file and the tree."""

    def __init__(self, file, tree, why):
        super().__init__(f"{file.place(tree.at)}: error: {tree.text()}: {why}")


class Costs:
    """The costs of a domain and a problem, with what has to be taken away of each."""

    def __init__(self, domain, problem):
        self.domain, self.problem = domain, problem
        self.cuts = {domain: [], problem: []}
        self.gone = set()
        self.functions, self.values, self.increases = {}, set(), []
        self.read_functions()
        for action in domain.sections(":action"):
            parts = keys(action)
            parameters = typed(parts[":parameters"].items or []) if ":parameters" in parts else []
            self.read_effect(parts.get(":effect"), None, action, parameters)
        self.read_init()
        self.read_metric()
        for file in (domain, problem):
            self.read_requirements(file)
            self.look_for_others(file, file.tree)

    def cut(self, file, tree, is_part=True):
        """Takes a tree away; where it is no part of an `and` or of a section, an empty list is left in its place."""
        self.cuts[file].append((tree, is_part))
        self.gone.add(id(tree))

    def read_requirements(self, file):
        """Takes away the word :action-costs."""
        for section in file.sections(":requirements"):
            for it in section.words()[1:]:
                if it.word == ":action-costs":
                    self.cut(file, it)

    def read_functions(self):
        """The functions with their numbers of objects."""
        for section in self.domain.sections(":functions"):
            for it, kind in typed(section.items[1:]):
                if not it.head() or kind not in ("number", "object"):
                    raise OtherForm(self.domain, it, "this is no function to numbers")
                self.functions[it.head()] = len(typed(it.items[1:]))
            self.cut(self.domain, section)

    def is_total(self, tree):
        """Whether a tree is `(total-cost)`, which is declared."""
        return tree.text() == "(total-cost)" and "total-cost" in self.functions

    def is_value(self, tree):
        """Whether a tree is a function other than total-cost with words, as many as it takes."""
        words = tree.words()[1:]
        return (
            tree.head() in self.functions
            and not self.is_total(tree)
            and len(words) == len(tree.items) - 1 == self.functions[tree.head()]
        )

    def read_effect(self, tree, parent, action, scope):
        """Takes the increases out of an effect, in whose scope these variables stand."""
        if tree is None or not tree.items:
            return
        if tree.head() == "and":
            for it in tree.items[1:]:
                self.read_effect(it, tree, action, scope)
        elif tree.head() == "forall":
            inner = typed(tree.items[1].items or []) if len(tree.items) > 1 else []
            for it in tree.items[2:]:
                self.read_effect(it, tree, action, scope + inner)
        elif tree.head() == "when":
            for it in tree.items[2:]:
                self.read_effect(it, tree, action, scope)
        elif tree.head() == "increase":
            self.read_increase(tree, action, scope)
            self.cut(self.domain, tree, parent is not None and parent.head() == "and")

    def read_increase(self, tree, action, scope):
        """Takes in one increase, with the action in which it stands and the variables in scope."""
        if len(tree.items) != 3 or not self.is_total(tree.items[1]):
            raise OtherForm(self.domain, tree, "only (total-cost) may be increased, and must be declared")
        by = tree.items[2]
        if by.word is None and not self.is_value(by) or by.word is not None and not NUMBER.match(by.word):
            raise OtherForm(self.domain, tree, "it may be increased by a number or by a function of variables and objects")
        self.increases.append((by, action, scope))

    def read_init(self):
        """Takes the values out of the initial state."""
        has_total = False
        for section in self.problem.sections(":init"):
            for it in section.items[1:]:
                if it.head() != "=" or len(it.items) != 3 or it.items[1].word is not None:
                    continue
                which, value = it.items[1:]
                if value.word is None or not NUMBER.match(value.word):
                    raise OtherForm(self.problem, it, "this is no number from 0 on")
                if self.is_total(which) and float(value.word) == 0:
                    has_total = True
                elif not self.is_value(which):
                    raise OtherForm(self.problem, it, "this is no value of a declared function, and (total-cost) begins with 0")
                self.values.add(which.text())
                self.cut(self.problem, it)
        if self.increases and not has_total:
            raise OtherForm(self.domain, self.increases[0][0], "costs are increased, and :init has no (= (total-cost) 0): write it there")

    def read_metric(self):
        """Takes the metric away."""
        for section in self.problem.sections(":metric"):
            if len(section.items) != 3 or section.items[1].word != "minimize" or not self.is_total(section.items[2]):
                raise OtherForm(self.problem, section, "the metric is not minimize (total-cost)")
            self.cut(self.problem, section)

    def look_for_others(self, file, tree):
        """Refuses numbers in what is left."""
        if tree.items is None or id(tree) in self.gone:
            return
        if tree.head() in CHANGES | COMPARISONS | set(self.functions):
            raise OtherForm(file, tree, "numbers do more here than count costs: amounts can be written as objects, and what comes after each as facts")
        if tree.head() == "=" and any(it.word is None or NUMBER.match(it.word) for it in tree.items[1:]):
            raise OtherForm(file, tree, "numbers are compared here")
        for it in tree.items:
            self.look_for_others(file, it)

    def left(self, file):
        """The text of a file with blanks for what is taken away."""
        pieces, at = [], 0
        for tree, is_part in sorted(self.cuts[file], key=lambda it: it[0].at):
            blanks = re.sub(r"[^\n]", " ", file.text[tree.at : tree.end])
            pieces += [file.text[at : tree.at], blanks if is_part else "(" + blanks[1:-1] + ")"]
            at = tree.end
        return "".join(pieces) + file.text[at:]

    def told(self):
        """A line for each thing that is taken away, in the order of the files."""
        for file, cuts in self.cuts.items():
            for tree, _ in sorted(cuts, key=lambda it: it[0].at):
                yield f"{file.place(tree.at)}: took away {tree.text()}"

    def wanted(self, calls):
        """The values of functions that calls want, each with its place and its call."""
        kinds = Kinds(self.domain, self.problem)
        for by, action, scope in self.increases:
            if by.word is not None:
                continue
            names = [it.word for it, _ in scope]
            executed = [call for call in calls if call[0] == action.items[1].word]
            for call in executed:
                inner = [kinds.fitting(kind) for _, kind in scope[len(call) - 1 :]]
                for objects in itertools.product(*inner):
                    stands = dict(zip(names, [*call[1:], *objects]))
                    words = [by.head()] + [stands.get(it.word, it.word) for it in by.items[1:]]
                    yield by, f"({' '.join(words)})", f"({' '.join(call)})"

    def see_values(self, calls):
        """Refuses a call whose cost has no value."""
        for by, value, call in self.wanted(calls):
            if value not in self.values:
                raise OtherForm(self.domain, by, f"{value} has no value, and {call} may be executed")


def put(folder, texts):
    """Writes texts under their names: all of them, or nothing where one can not be written."""
    made = missing(folder)
    folder.mkdir(parents=True, exist_ok=True)
    new = {}
    try:
        for name, text in texts.items():
            new[name] = fresh_file(folder, text.encode("latin-1"))
        for name, path in new.items():
            path.replace(folder / name)
    except OSError:
        for path in new.values():
            path.unlink(missing_ok=True)
        for it in made:
            it.rmdir()
        raise


def missing(folder):
    """The folders that are not there on the way to this one, the innermost first."""
    return [it for it in (folder, *folder.parents) if not it.exists()]


def stripped(domain, problem):
    """The costs of both files, the texts that are left under their names, and what ground comes to on these."""
    costs = Costs(File(domain), File(problem))
    texts = {pathlib.Path(it.path).name: costs.left(it) for it in (costs.domain, costs.problem)}
    with tempfile.TemporaryDirectory() as room:
        put(pathlib.Path(room), texts)
        ground = Ground(*(str(pathlib.Path(room) / name) for name in texts))
    if ground.is_known:
        costs.see_values(ground.calls)
    return costs, texts, ground


def are_words(words):
    """Whether the words are two files of different names, which do not stand in the folder, and a folder."""
    if len(words) != 3:
        return False
    files, folder = [pathlib.Path(it) for it in words[:2]], pathlib.Path(words[2]).resolve()
    return files[0].name != files[1].name and all(it.resolve().parent != folder for it in files)


def main(words):
    """Writes both files; answers the exit status."""
    if not are_words(words):
        why = "two files of different names, and a folder in which neither stands"
        print(f"without-costs: the words are: DOMAIN PROBLEM FOLDER, {why}", file=sys.stderr)
        return 7
    try:
        try:
            costs, texts, ground = stripped(*words[:2])
        except (NoTree, FileNotFoundError, PermissionError, IsADirectoryError):
            costs, ground = None, Ground(*words[:2])
        if costs is None or ground.status not in (0, 4):
            ground.tell(dict(zip(("domain", "problem"), words)))
            return ground.status
    except OtherForm as why:
        print(why, file=sys.stderr)
        return 1
    except OSError as fault:
        print(f"without-costs: the planner does not run: {fault}", file=sys.stderr)
        return 70
    try:
        put(pathlib.Path(words[2]), texts)
    except OSError as fault:
        print(f"without-costs: {fault}", file=sys.stderr)
        return 6
    print(*costs.told(), sep="\n", end="\n" if any(costs.cuts.values()) else "")
    if not ground.is_known:
        print("the planner meets a limit: whether each cost has a value was not seen")
    print("wrote " + " and ".join(str(pathlib.Path(words[2]) / name) for name in texts))
    return 0


if __name__ == "__main__":
    sys.exit(main(sys.argv[1:]))
