"""Faults of kinds `syntax`, `deep` and `unsupported`."""
import re

from messages.text import called, shown

BINARY = re.compile(r"[^\t\n\r -~]")
KEYS = (":parameters", ":precondition", ":effect")
ALL_SECTIONS = (":requirements", ":types", ":constants", ":predicates", ":functions", ":action", ":domain", ":objects", ":init", ":goal", ":metric")
TIMED = re.compile(r"[0-9]+(\.[0-9]+)?:?\Z")


def of_syntax(source, at, which):
    """The sentence, by what stands at the offset."""
    if which == "proof":
        return "this line is none of a certificate, or of another spelling than the one that prove writes"
    if which == "certificate":
        return of_certificate(source, at)
    if which == "LRAT" and BINARY.search(source.text[at : at + 200]):
        return "this is no text: have the solver write the proof as text, as CaDiCaL does with --no-binary"
    if which == "LRAT":
        return "this line is none of a proof in the text form of LRAT, or is cut off"
    at_end = at == len(source.text)
    if which == "model":
        if at_end:
            return "the values, lines that begin with v, have no 0 at their end"
        return "a solver prints no such line of a model, or a value in it is the contrary of one before it"
    depth, ended = lists_before(source.text, at)
    byte = of_byte(source.text, at)
    if at_end:
        return of_end(source) if depth else "the file has no list"
    if byte:
        return byte
    if which == "plan":
        return of_call(source.text, at, depth)
    if depth == 0 and ended:
        head = re.match(r"(?:;[^\n]*\n|\s)*\(\s*([^\s();]*)", source.text)
        ask = f": is '(define' missing before '({head[1]}'?" if head and head[1] in ("domain", "problem") else ""
        return f"a file is one list, and something stands after it{ask}"
    if depth == 0:
        ask = ": is a parenthesis missing before it?" if source.text[at : at + 6].lower() == "define" else ""
        return f"a file is one list, and something stands before it{ask}"
    return "this byte may stand in a comment alone"


def of_certificate(source, at):
    """What is wrong in the line of a certificate of `never` that begins at an offset."""
    kinds = ("clauses forward", "clauses backward", "weights")
    lines = [line.split() for line in source.text[:at].split("\n")]
    kind = next((" ".join(it) for it in lines if " ".join(it) in kinds), None)
    words = source.text[at:].split("\n", 1)[0].split()
    if kind is None:
        return f"a certificate begins with a line {', '.join(f'`{it}`' for it in kinds[:2])} or `{kinds[2]}`"
    bad = next((it for it in words if not re.match(r"-?(0|[1-9][0-9]*)\Z", it)), None)
    if bad:
        return f"'{bad}' is no number"
    if kind == "weights":
        return "a line of weights is a fact's number in `ground` plus 1, and its weight" if len(words) != 2 else \
            "there is no such fact (`ground` lists them, from 0 on, and here they count from 1), or the weights' sum is past 2^63"
    if words[-1] != "0" or "0" in words[:-1]:
        return "a clause is one line, which ends with the number 0"
    return "there is no such fact (`ground` lists them, from 0 on, and here they count from 1), or the clause has more than 4,096 literals"


def lists_before(text, at):
    """How many lists are open at an offset, and whether one has ended outside of all others."""
    depth, ended = 0, False
    for found in re.finditer(r";[^\n]*|[()]", text[:at]):
        if found[0] == "(":
            depth += 1
        elif found[0] == ")":
            depth = max(depth - 1, 0)
            ended = ended or depth == 0
    return depth, ended


def of_byte(text, at):
    """What a byte is that may stand in a comment alone; nothing for one that may stand elsewhere."""
    rest = text[at : at + 3]
    if rest == "\xef\xbb\xbf":
        return "the file begins with a byte order mark, which is no part of PDDL: save it as UTF-8 without one"
    if rest[:2] == "\xc2\xa0":
        return "a no-break space stands here (U+00A0): write a plain blank"
    if rest[:2] in ("\xff\xfe", "\xfe\xff"):
        return "the file is UTF-16: save it as plain text (ASCII or UTF-8)"
    if rest in ("\xe2\x80\x90", "\xe2\x80\x91", "\xe2\x80\x92", "\xe2\x80\x93", "\xe2\x80\x94", "\xe2\x88\x92"):
        return "a dash of another kind stands here: types come behind '-'"
    if rest[:1] > "~":
        return "a letter that is not ASCII stands here: it may stand in a comment alone"
    return ""


def of_call(text, at, depth):
    """What is wrong in a plan file."""
    rest = text[at:]
    word = re.match(r"[^\s();]*", rest)[0]
    if rest[0] == "(":
        return "a call is empty" if depth == 0 else "a list stands inside a call"
    if depth == 0 and TIMED.match(word):
        return f"'{word}' is a time: times are taken with --timed, which leaves them out"
    if depth == 0 and word[:1] == "[" and re.match(r"\[[0-9. ]*\]", rest):
        return f"'{word}' is a duration: durations are taken with --timed, which leaves them out"
    if depth == 0 and word:
        return f"'{word}' stands outside of a call; a call is (ACTION OBJECT ..), and what is no call has to be a comment, which begins with ;"
    if depth == 0:
        return "a parenthesis is closed here that none opens, or this byte may stand in a comment alone"
    return "this byte may stand in a comment alone"


def of_end(source):
    """What is not closed where the file ends."""
    at, _, _ = not_closed(source)
    begins = shown(source.text[at : at + 60].partition("\n")[0].strip())
    return f"the file ends inside a list, which is not closed: '{begins}' in {source.where(at)}"


def not_closed(source):
    """The list that was most likely not closed, and what stands in it that belongs into no such list, with its place: the first key of
    an action that does not stand in one, or the first section in another one. Nothing of that: the innermost list at the file's end."""
    opened = []
    for found in re.finditer(r";[^\n]*|[()]|(?<=[\s(])(:[\w-]+)", source.text):
        word, at = found[0].lower(), found.start()
        if word == "(":
            opened.append(at)
        elif word == ")" and opened:
            opened.pop()
        elif word in KEYS and len(opened) > 2:
            return opened[-1], word, at
        elif word in ALL_SECTIONS and len(opened) > 2 and source.text[at - 1] == "(":
            return opened[-2], f"({word}", at - 1
    return opened[-1], None, len(source.text)


def open_notes(source):
    """Where the list that is not closed begins, and what stands in it that should not."""
    if lists_before(source.text, len(source.text))[0] == 0:
        return
    begin, word, at = not_closed(source)
    yield begin, "the list that begins here is not closed"
    if word:
        yield at, f"'{word}' stands inside of it: is it to be closed before?"


def open_call(source, at):
    """Of a list inside a call: where the call begins, if that is in a line before."""
    begin = source.text.rfind("(", 0, at)
    if source.text[at : at + 1] == "(" and begin >= 0 and source.place(begin)[0] < source.place(at)[0]:
        yield begin, "the call that begins here is not closed"


OR_PLAIN = f", or call {called('solve')}, which rewrites it by itself ({called('plain')} writes the files without it)"
COSTS = f"where these are action costs alone, {called('solve')} leaves them out by itself, and {called('plain')} and without-costs write the files without them"
NUMBERS = ("increase", "decrease", "assign", "scale-up", "scale-down", ":metric", ":functions")
COMPARES = ("<", ">", "<=", ">=")


def of_unsupported(spot):
    """PDDL that is not taken, by its word and where it stands."""
    word = spot.item.word if spot.item.word is not None else spot.item.head()
    section = spot.path[1].head() if len(spot.path) > 1 else ""
    if word in NUMBERS:
        return f"'{word}' is not taken: {COSTS}"
    if word == "=":
        what = spot.item.items[1].text() if len(spot.item.items or []) > 1 else word
        return f"{what} is a numeric fluent, and numbers are not taken: {COSTS}"
    if word in COMPARES:
        return "numbers are not taken, and so are not compared"
    if word == ":durative-action":
        return "actions that take time are not taken"
    if word in (":derived", ":axiom"):
        return "derived predicates are not taken"
    if word in (":constraints", "preference"):
        return "constraints and preferences are not taken"
    if word == "either":
        return f"'either' is not taken: declare a type above these types, and use it{OR_PLAIN}"
    if section == ":goal":
        return of_goal(word)
    if word in ("or", "imply", "exists"):
        in_effect = is_effect(spot)
        return f"'{word}' is no effect" if in_effect else f"'{word}' is not taken in conditions: part the action into several{OR_PLAIN}"
    if word == "forall":
        return f"'forall' is not taken in conditions, nor inside of 'when': write its instances{OR_PLAIN}"
    if word == "when":
        return "'when' is not taken in conditions, nor inside of 'when'"
    if word == "not":
        return f"'not' is taken of an atom alone: write the contrary of what stands in it{OR_PLAIN}"
    return f"'{word}' is PDDL that is not taken here"


def of_goal(word):
    """What is not taken in a goal: an action can not be parted there, but one can be added."""
    if word in ("or", "exists", "imply"):
        return f"'{word}' is not taken in a goal: write a problem for each case{OR_PLAIN}"
    if word == "forall":
        return f"'forall' is not taken in a goal: write its instances{OR_PLAIN}"
    return f"'{word}' is not taken in a goal{OR_PLAIN if word == 'not' else ''}"


def is_effect(spot):
    """Whether the spot lies in the effect of an action, and in no condition of it."""
    if len(spot.path) < 3 or spot.path[1].head() != ":action":
        return False
    key = spot.path[1].items[spot.places[2] - 1].word
    return key == ":effect" and not any(tree.head() == "when" and place == 1 for tree, place in zip(spot.path, spot.places[1:]))
