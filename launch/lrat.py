#!/usr/bin/env python3
"""Writes a certificate of `prove` as LRAT, which other checkers read, or an LRAT proof as a certificate for `verify`.

    lrat.py to-lrat DOMAIN PROBLEM CERTIFICATE [--clauses N]
    lrat.py from-lrat DOMAIN PROBLEM HORIZON PROOF [--clauses N]

The text goes to standard output. N is the number of clauses of the formula; without it `formula` is asked. Nothing is judged
here: who reads the text does that. In a certificate the clauses are numbered from 0, those of the formula first, and each `learn`
takes the next number; an LRAT line names its own, from 1. A literal is a code there, twice the variable from 0 and one more where
it is false, and a number from 1 with a sign here. What LRAT takes away stays in a certificate. Status 3 where a file has another
form, 7 for other words."""
import os, pathlib, subprocess, sys

class Wrong(Exception):
    """A file that has another form."""

def literal_of(code):
    """The number with a sign."""
    return code // 2 + 1 if code % 2 == 0 else -(code // 2 + 1)

def code_of(literal):
    return 2 * literal - 2 if literal > 0 else -2 * literal - 1

def clauses_of(domain, problem, horizon):
    """The number of clauses of the formula, as the program writes it in the header."""
    words = [pathlib.Path(__file__).resolve().parent.parent / "dokyreva", "formula", domain, problem, str(horizon)]
    with subprocess.Popen(words, stdout=subprocess.PIPE, stderr=subprocess.DEVNULL, text=True) as run:
        for line in run.stdout:
            if line.startswith("p cnf "):
                return int(line.split()[3])
            if not line.startswith("c "):
                break
    raise Wrong(f"there is no formula of horizon {horizon}")

def line_of(words):
    """A line of LRAT: its id, its literals and its hints; where it takes clauses away, no literals and their ids. Raises ValueError where it
    is no such line."""
    if words[1:2] == ["d"]:
        name, literals, rest = int(words[0]), None, [int(it) for it in words[2:]]
    else:
        name, *rest = map(int, words)
        end = rest.index(0)
        literals, rest = rest[:end], rest[end + 1:] or [0]
    if rest[-1:] != [0]:
        raise ValueError
    return name, literals, rest[:-1]

def lines_to_lrat(lines, count):
    """The lines of LRAT for those of a certificate, behind the first, over so many clauses."""
    last = count
    for at, line in enumerate(lines, 2):
        word, *rest = line.split()
        try:
            if word == "learn":
                by = rest.index("by")
                last += 1
                lits = [literal_of(int(it)) for it in rest[:by]]
                yield " ".join(map(str, [last, *lits, 0, *(int(it) + 1 for it in rest[by + 1:]), 0]))
            elif word == "drop":
                yield " ".join(map(str, [last, "d", *(int(it) + 1 for it in rest), 0]))
            else:
                raise ValueError
        except ValueError:
            raise Wrong(f"line {at} is none of a certificate") from None

def lines_to_certificate(lines, count):
    """The lines of a certificate, behind the first, for those of LRAT, as far as the empty clause."""
    numbers, following = {}, count
    for at, line in enumerate(lines, 1):
        words = line.split()
        if not words or words[0] == "c" or len(words) > 1 and words[1] == "d":
            continue
        try:
            name, literals, named = line_of(words)
            if literals and any(-it in literals for it in literals):
                continue
            codes = sorted(map(code_of, literals))
            hints = [it - 1 if it <= count else numbers[it] for it in named]
            if min(hints, default=0) < 0:
                raise ValueError
        except (KeyError, ValueError):
            raise Wrong(f"line {at} is none of a proof by reverse unit propagation in LRAT") from None
        numbers[name], following = following, following + 1
        yield " ".join(["learn", *map(str, codes), "by", *map(str, hints)])
        if not codes:
            return

def to_lrat(domain, problem, certificate, count):
    """The lines of LRAT for a certificate."""
    with open(certificate, encoding="ascii", errors="replace") as text:
        word, _, horizon = text.readline().strip().partition(" ")
        if word != "horizon" or not horizon.isdecimal():
            raise Wrong("line 1 is none of a certificate")
        yield from lines_to_lrat(text, count if count is not None else clauses_of(domain, problem, horizon))

def from_lrat(domain, problem, horizon, proof, count):
    """The lines of a certificate for a proof in LRAT."""
    yield f"horizon {horizon}"
    with open(proof, encoding="ascii", errors="replace") as text:
        yield from lines_to_certificate(text, count if count is not None else clauses_of(domain, problem, horizon))

def main(command, *words):
    """The status."""
    count, words = None, list(words)
    if len(words) > 2 and words[-2] == "--clauses" and words[-1].isdecimal():
        count, words = int(words[-1]), words[:-2]
    ways = {("to-lrat", 3): to_lrat, ("from-lrat", 4): from_lrat}
    if (command, len(words)) not in ways:
        print(f"dokyreva: {command} takes other words: --help tells them", file=sys.stderr)
        return 7
    try:
        for line in ways[command, len(words)](*words, count):
            print(line)
    except Wrong as fault:
        print(f"{words[-1]}: {fault}", file=sys.stderr)
        return 3
    except OSError as fault:
        print(f"{words[-1]}: {fault.strerror}", file=sys.stderr)
        return 5 if fault.filename else 6
    return 0

if __name__ == "__main__":
    name = os.environ.get("DOKYREVA_COMMAND")
    sys.exit(main(*([name] if name else []), *sys.argv[1:]) if name or len(sys.argv) > 1 else 7)
