"""What is expected where the planner says `shape`: something stands where it may not, or is missing."""
from messages.text import meant
from pddl import typed

SECTIONS = {
    "domain": (":requirements", ":types", ":constants", ":predicates", ":action"),
    "problem": (":domain", ":requirements", ":objects", ":init", ":goal"),
}
OTHER = {"domain": "problem", "problem": "domain"}
KEYS = (":parameters", ":precondition", ":effect")
PARTS = {
    "not": ("one condition", 1),
    "when": ("a condition and an effect", 2),
    "forall": ("a list of variables and what holds of each", 2),
    "=": ("two terms", 2),
}


def count(number):
    """How many stand there."""
    return f"{number} stands here" if number == 1 else f"{number} stand here"


def of_shape(spot, kind, source):
    """The sentence, for a spot in a file of this kind, domain or problem."""
    depth = len(spot.path)
    if depth == 1:
        return of_root(spot, kind)
    if depth == 3 and spot.path[1].head() in OTHER and spot.places[1] == 1 and spot.place == 0:
        return f"a {kind} is asked for here, and the file is a {spot.item.word}"
    if spot.places[1] < 2:
        return f"the file begins with (define ({kind} NAME)"
    if depth == 2:
        return of_section(spot, kind)
    head = spot.path[1].head()
    if head == ":action":
        return of_action(spot)
    if head in (":types", ":constants", ":objects"):
        return of_names(spot, head, source)
    if head == ":predicates":
        return of_names(spot, head, source) if depth > 3 else "a predicate is declared as a list, (NAME ?x - TYPE ..)"
    if head == ":goal" and depth == 3:
        return of_goal(spot)
    if head == ":init" and depth == 3:
        return "an atom of :init is a list, (PREDICATE OBJECT ..)"
    if head in (":goal", ":init"):
        return of_condition(spot, "condition")
    return f"this may not stand in {head}"


def of_root(spot, kind):
    """The file itself."""
    root = spot.item
    if root.head() != "define":
        return f"the file begins with (define ({kind} NAME)"
    if kind == "problem" and not any(it.head() == ":goal" for it in root.items):
        return "the problem has no (:goal ..)"
    return f"the file is not (define ({kind} NAME) SECTION ..)"


def of_section(spot, kind):
    """Something that stands between the sections, or is none."""
    item, known = spot.item, SECTIONS[kind]
    if item.word is not None:
        if item.word[0] in "#/%":
            return f"a section is expected, and '{item.word}' stands here: a comment begins with ;"
        return f"a section is expected, a list that begins with one of {', '.join(known)}, and the word '{item.word}' stands here"
    head = item.head()
    if head not in known and head in SECTIONS[OTHER[kind]]:
        return f"'{head}' is a section of a {OTHER[kind]}, and this file is a {kind}"
    if head == ":goal":
        return ":goal has no condition; one that always holds is (:goal ())"
    if head == ":action":
        return of_whole_action(item)
    if head in known:
        return f"something is missing in '{head}', or is too much"
    if ":" + head in known:
        return f"the colon is missing: did you mean '(:{head}'?"
    ask = meant(head if head[:1] == ":" else ":" + head, known, "did you mean '({}'?") if head else ""
    return f"there is no section '{head}'{ask or ': the sections of a ' + kind + ' are ' + ', '.join(known)}"


def of_whole_action(action):
    """An action of which the planner tells the place of its list: the last key has no value."""
    if len(action.items) < 2:
        return "the action has no name"
    last = action.items[-1]
    if last.word in KEYS:
        return f"the action {action.items[1].text()} has nothing behind {last.word}"
    return f"something is missing in the action {action.items[1].text()}"


def of_action(spot):
    """Something in an action."""
    action, place = spot.path[1], spot.places[2]
    if place == 1:
        return f"the name of the action is expected, and '{spot.item.text()}' stands here"
    key = action.items[place - 1].word if place % 2 else action.items[place - 2].word
    if len(spot.path) == 3 and place % 2 == 0:
        return of_key(spot, action, place, key)
    if len(spot.path) == 3 and key == ":parameters":
        return "the parameters stand in a list, (?x ?y - TYPE ..)"
    if key == ":parameters":
        return of_names(spot, key, None)
    return of_condition(spot, "effect" if key == ":effect" else "condition")


def of_key(spot, action, place, before):
    """Something that stands where a key of an action is expected."""
    item = spot.item
    if item.word is None and before in KEYS:
        first = action.items[place - 1]
        both = f"(and {first.text()} {item.text()} ..)"
        both = both if len(both) < 80 else "(and (..) (..))"
        return f"{before} has one value, and a second one stands here: is it {both}?"
    if item.word is None:
        return f"one of {', '.join(KEYS)} or the end of the action is expected, and a list stands here"
    value = action.items[place - 1].word
    if value is not None and item.word[:1] != ":" and before in KEYS:
        return f"the value of {before} is a list: is a parenthesis missing before '{value}'?"
    ask = meant(item.word if item.word[:1] == ":" else ":" + item.word, KEYS)
    if not ask and item.word.startswith(":par"):
        ask = ": did you mean ':parameters'?"
    return f"one of {', '.join(KEYS)} is expected, and '{item.word}' stands here{ask}"


def of_names(spot, head, source):
    """Something in a list of names with types."""
    item, before = spot.item, spot.parent.items[spot.place - 1] if spot.place else None
    variables = head in (":parameters", ":predicates") or head == "forall"
    what = "variable" if variables else "type" if head == ":types" else "name"
    if item.word is None:
        return f"a {what} is expected, and a list stands here"
    if item.word == "-":
        behind = spot.parent.items[spot.place + 1 :]
        if not behind:
            return "a type is missing behind '-'"
        if spot.place == (0 if variables and head == ":parameters" else 1):
            return f"a {what} is missing before '-'"
        return f"the type behind '-' is a name, and '{behind[0].text()}' stands there"
    if item.word[0] == "-":
        return f"'{item.word}' is one word: is a blank missing behind its '-', as in '- {item.word[1:]}'?"
    if before is not None and before.word and before.word[-1] == "-" and len(before.word) > 1:
        return f"a {what} is expected, and '{item.word}' stands here: is a blank missing before the '-' of '{before.word}'?"
    if before is not None and before.word == "-":
        return f"a type is expected behind '-', and '{item.word}' stands here"
    if variables and item.word[0] != "?":
        return f"a variable begins with '?': did you mean '?{item.word}'?"
    if not variables and item.word[0] == "?":
        return f"a {what} is expected, and '{item.word}' is a variable"
    ring = ring_of(item.word, spot.parent) if head == ":types" else ""
    return ring or f"a {what} is expected, and '{item.word}' stands here"


def ring_of(word, section):
    """The cycle of types in which this one lies, in words; nothing where it lies in none."""
    above = {it.word: kind for it, kind in typed(section.items[1:])}
    chain = [word]
    while chain[-1] in above and above[chain[-1]] not in chain:
        chain.append(above[chain[-1]])
    if above.get(chain[-1]) not in chain:
        return ""
    ring = chain[chain.index(above[chain[-1]]) :]
    if len(ring) == 1:
        return f"the type '{ring[0]}' lies under itself"
    return f"the types lie under one another in a cycle: {' - '.join([*ring, ring[0]])}"


def of_goal(spot):
    """What stands behind `:goal`."""
    goal = spot.path[1]
    if spot.item.word is not None:
        return f":goal has one condition, a list: is it (:goal ({' '.join(it.text() for it in goal.items[1:])}))?"
    if spot.place > 1:
        return ":goal has one condition, and a second one stands here: is it (:goal (and (..) (..)))?"
    return of_condition(spot, "condition")


def of_condition(spot, what):
    """Something in a condition or an effect."""
    item, parent = spot.item, spot.parent
    if parent.items and parent.items[0].word is None and len(spot.path) > 3:
        return f"a {what} begins with a word, and a list stands here: is `and` missing, as in (and {item.text()} ..)?"
    head = item.head() if item.word is None else ""
    if head in PARTS:
        parts, due = PARTS[head]
        if head == "=" and what == "effect":
            return "'=' is a condition and no effect"
        if len(item.items) - 1 != due:
            return f"'{head}' takes {parts}, and {count(len(item.items) - 1)}"
    outer = parent.head()
    if outer == "forall" and spot.place == 1:
        return f"the variables of forall stand in a list: is it (forall ({item.text()}) ..)?"
    if len(spot.path) > 4 and spot.path[-3].head() == "forall" and spot.places[-2] == 1:
        return of_names(spot, "forall", None)
    if item.word is not None:
        return f"a {what} is a list, and the word '{item.word}' stands here: is it ({item.word})?"
    if outer in ("and", "not", "when", "forall") or outer[:1] == ":":
        return f"a {what} begins with a predicate, or with one of and, not, =, when, forall"
    return f"a variable or an object is expected in '{outer}', and a list stands here"
