"""Invariants of hardware model checkers as certificates.

    invariants.py zeros SYSTEM               the same system, in which each latch begins with 0
    invariants.py certificate SYSTEM PLA     the certificate, of the invariant that ABC has written of that

SYSTEM is a text in the form of BLIF, whose latches are the facts in their order. ABC writes an invariant as a PLA: each line is a part of
the states that is excluded, whose columns are the latches that `.ilb` names. It tells of latches that begin with 0 alone, so each other
one is the opposite of a new one. Status 1: it can not be read."""
import pathlib
import re
import sys

OPPOSITE = "opposite-of-"


def statements(text):
    """The statements of a text in BLIF: lists of words. A line that ends with a backslash goes on in the next one."""
    plain = re.sub(r"#[^\n]*", "", text).replace("\\\n", " ")
    return [line.split() for line in plain.split("\n") if line.split()]


def latches(text):
    """The outputs of the latches, each with whether it begins with 1."""
    return [(it[2], it[-1] == "1") for it in statements(text) if it[0] == ".latch"]


def zeros(text):
    """The system in which each latch begins with 0."""
    lines = []
    for words in statements(text):
        if words[0] == ".latch" and words[-1] == "1":
            made, name = words[1:3]
            lines += [f".latch {OPPOSITE}{made} {OPPOSITE}{name} 0", f".names {made} {OPPOSITE}{made}", "0 1",
                      f".names {OPPOSITE}{name} {name}", "0 1"]
        else:
            lines.append(" ".join(words))
    return "\n".join([*lines, ""])


def certificate(text, pla):
    """The clauses of an invariant: each says that a part of the states is excluded."""
    numbers = {(OPPOSITE if is_opposite else "") + name: (fact, -1 if is_opposite else 1)
               for fact, (name, is_opposite) in enumerate(latches(text), 1)}
    columns, lines = None, ["clauses forward"]
    for words in statements(pla):
        if words[0] == ".ilb":
            columns = [numbers[it] for it in words[1:]]
        elif words[0][0] != ".":
            if columns is None or len(words[0]) != len(columns) or set(words[0]) - set("01-"):
                return None
            clause = [fact * sign * (-1 if it == "1" else 1) for it, (fact, sign) in zip(words[0], columns) if it != "-"]
            lines.append(" ".join(map(str, [*clause, 0])))
    return "\n".join([*lines, ""])


def main(words):
    """Prints what is asked for; answers the status."""
    texts = [pathlib.Path(it).read_text(encoding="latin-1") for it in words[1:]]
    try:
        text = zeros(texts[0]) if words[0] == "zeros" else certificate(*texts)
    except (KeyError, IndexError):
        text = None
    if text is None:
        return 1
    sys.stdout.write(text)
    return 0


if __name__ == "__main__":
    sys.exit(main(sys.argv[1:]))
