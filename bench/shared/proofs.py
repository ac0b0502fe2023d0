"""Proofs in the text form of LRAT, read plainly, and what is due for each: for scripts that hold the judge to it.

A line `ID LITERALS 0 HINTS 0` follows where the id is above all before it, each hint names a clause that is kept, and with the
literals false each hint but the last has exactly one literal that is not false, which has no value and becomes true, while all
literals of the last are false. A line `ID d IDS 0` follows where each id names a clause that is kept, and drops them."""
import pathlib, sys

sys.path.append(str(pathlib.Path(__file__).resolve().parents[2] / "launch"))
from lrat import line_of

def clauses_of(text):
    """The number of variables of a formula in the DIMACS format, and its clauses."""
    variables, clauses = 0, []
    for line in text.splitlines():
        if line.startswith("p"):
            variables = int(line.split()[2])
        elif not line.startswith("c"):
            clauses.append([int(word) for word in line.split()[:-1]])
    return variables, clauses

def leads_to_conflict(kept, literals, hints):
    """Whether the clause with these literals follows by these hints."""
    false = set(literals)
    for n, hint in enumerate(hints):
        if hint not in kept:
            return False
        left = [it for it in kept[hint] if it not in false]
        if not left:
            return n == len(hints) - 1
        if len(left) > 1 or -left[0] in false:
            return False
        false.add(-left[0])
    return False

def due_of(variables, clauses, lines, horizon):
    """The line that is due for a proof, given as lists of words, and its status."""
    kept, last, entries = dict(enumerate(clauses, 1)), len(clauses), 0
    if [] in clauses:
        return f"; refuted horizon {horizon} entries 0\n", 0
    for number, words in enumerate(lines, 1):
        if not words or words[0] == "c":
            continue
        rejected = f"; rejected line {number}\n", 1
        name, literals, hints = line_of(words)
        if literals is None:
            for it in hints:
                if kept.pop(it, None) is None:
                    return rejected
                entries += 1
            continue
        if any(-it in literals for it in literals):
            continue
        lawful = len({abs(it) for it in literals}) == len(literals) and all(abs(it) <= variables for it in literals)
        if name <= last or not lawful or not leads_to_conflict(kept, literals, hints):
            return rejected
        kept[name], last, entries = literals, name, entries + 1
        if not literals:
            return f"; refuted horizon {horizon} entries {entries}\n", 0
    return "; not empty\n", 1

def model_fault(clauses, true):
    """The number, from 1, of the first clause without a literal that is true; none where each has one."""
    for number, clause in enumerate(clauses, 1):
        if not any((it > 0) == (abs(it) in true) for it in clause):
            return number
    return None
