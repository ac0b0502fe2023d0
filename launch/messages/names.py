"""Names that are not declared, that take another number of arguments, or that stand twice; and objects of another type."""
from messages.shape import count
from messages.text import meant
from pddl import typed

CONNECTIVES = ("and", "not", "or", "imply", "exists", "forall", "when", "=")


def scope_of(spot):
    """The variables at a spot: those of the action and of each forall around it."""
    names = {}
    if len(spot.path) > 1 and spot.path[1].head() == ":action":
        items = spot.path[1].items
        for key, value in zip(items[2::2], items[3::2]):
            if key.word == ":parameters" and value.items:
                names.update((it.word, kind) for it, kind in typed(value.items) if it.word)
    for tree, place in zip(spot.path, spot.places[1:]):
        if tree.head() in ("forall", "exists") and place > 1 and tree.items[1].items:
            names.update((it.word, kind) for it, kind in typed(tree.items[1].items) if it.word)
    return names


def is_type(spot):
    """Whether the word stands where a type is expected."""
    return spot.place > 0 and spot.parent.items[spot.place - 1].word == "-"


def of_unknown(spot, which, declared):
    """A name that is nowhere declared."""
    word = spot.item.word
    if which == "plan":
        return of_unknown_call(spot, declared)
    if is_type(spot):
        if not declared.types:
            return f"the type '{word}' is not declared: there is no section :types"
        return f"the type '{word}' is not declared in :types{meant(word, [*declared.types, 'object'])}"
    if spot.place == 0:
        return of_unknown_predicate(spot, declared)
    if word[0] == "?":
        if spot.path[1].head() in (":goal", ":init"):
            return f"'{word}' is a variable, and {spot.path[1].head()} has objects alone"
        return f"the variable '{word}' is no parameter of this action{meant(word, scope_of(spot))}"
    scope = scope_of(spot)
    if "?" + word in scope:
        return f"there is no object '{word}': did you mean the variable '?{word}'?"
    return f"there is no object '{word}' in :constants or :objects{meant(word, [*declared.objects, *scope])}"


def of_unknown_predicate(spot, declared):
    """A predicate that is nowhere declared."""
    word, section = spot.item.word, spot.path[1].head()
    if section == ":init" and word in CONNECTIVES:
        return f"':init' is a list of atoms: '{word}' has no place in it" + (", and the atoms stand alone" if word == "and" else "")
    if word[0] == "?":
        return f"a predicate is expected, and the variable '{word}' stands here"
    if word in ("or", "imply", "exists"):
        return f"'{word}' is not taken here"
    return f"the predicate '{word}' is not declared in :predicates{meant(word, declared.predicates)}"


def of_unknown_call(spot, declared):
    """A name in a plan."""
    word = spot.item.word
    if spot.place == 0:
        return f"there is no action '{word}' in the domain{meant(word, declared.actions)}"
    return f"there is no object '{word}'{meant(word, declared.objects)}"


def of_arity(spot, which, declared):
    """A list with another number of arguments than is declared, and where that is."""
    head = spot.item.head()
    have = len(spot.item.items) - 1
    if which == "plan":
        tree = declared.actions.get(head)
        due = declared.parameters(tree) if tree else None
        form = "(" + " ".join([head, *(f"{it.word} - {kind}" for it, kind in due or ())]) + ")"
        tree = tree.items[1] if tree else None
    else:
        tree = declared.predicates.get(head)
        due = typed(tree.items[1:]) if tree else None
        form = tree.text() if tree else ""
    if due is None:
        return f"'{head}' has another number of arguments here than where it is declared", None
    words = "argument" if len(due) == 1 else "arguments"
    return f"'{head}' takes {len(due)} {words}, and {count(have)}: {form}", tree


def of_duplicate(spot, source):
    """Something that stands for the second time, and its first place."""
    item = spot.item
    if item.word is None:
        return f"a section '{item.head()}' stands here for the second time", first_list(source, item)
    first = first_word(spot, source)
    if first is None:
        return f"'{item.word}' was declared before as something else", None
    return f"'{item.word}' stands here for the second time", first


def first_list(source, item):
    """The first section with this head."""
    return next((it.at for it in source.sections(item.head()) if it.at < item.at), None)


def first_word(spot, source):
    """The offset at which the same name was declared before: in the same list, or in a section of the same head."""
    word, path = spot.item.word, spot.path
    lists = [spot.parent] if len(path) < 4 or path[1].head() == ":action" else [path[1]]
    if len(path) == 3:
        lists = source.sections(path[1].head())
    for tree in lists:
        at = first_in(tree, word, path[1].head() if len(path) > 1 else "", spot.item.at)
        if at is not None:
            return at
    return None


def first_in(tree, word, head, before):
    """The first place of a name in a list: an item, or the head of one where predicates are declared, or the name of an action."""
    if head == ":action" and len(tree.items) > 1 and tree.head() == ":action" and word[0] not in "?:":
        found = [tree.items[1]] if tree.items[1].word == word else []
    elif head == ":predicates" and tree.head() == ":predicates":
        found = [it.items[0] for it in tree.items[1:] if it.head() == word]
    else:
        found = [it for it in tree.items if it.word == word]
    return next((it.at for it in found if it.at < before), None)


def of_type(spot, declared):
    """An object in a plan that has another type than the parameter for which it stands."""
    word, call = spot.item.word, spot.parent
    action = declared.actions.get(call.head())
    due = declared.parameters(action) if action else []
    kind = declared.objects.get(word)
    if kind is None or spot.place > len(due):
        return f"the object '{word}' is not of the type of the parameter for which it stands"
    it, wanted = due[spot.place - 1]
    return f"'{word}' is of type {kind}, and the parameter {it.word} of {call.head()} takes a {wanted}"
