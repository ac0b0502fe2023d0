"""The types of values in a crate's sources, as far as one has to know them to tell who is called.

A type is (key, arguments): the key is a word for those of the language and its libraries, (crate, module, name) for those of the
crates, or ("parameter", name). A reference is its target; slices and arrays are vectors. None is a type that is not known."""

PLAIN = {"u8", "u16", "u32", "u64", "u128", "usize", "i32", "i64", "isize", "bool", "str", "char", "f64"}

def of(key, *arguments):
    return (key, arguments)

ERROR = of("AllocError")
UNIT = of("()")
NEVER = of("!")

def parameter(name):
    return of(("parameter", name))

def is_parameter(key):
    return isinstance(key, tuple) and key[0] == "parameter"

def item(it):
    """The first argument of a type: what an option, a result or a list has."""
    return it[1][0] if it and it[1] else None

def fault(it):
    """The second argument of a type: the fault of a result."""
    return it[1][1] if it and len(it[1]) > 1 else None

def replaced(it, by):
    """A type with its parameters replaced."""
    if it is None:
        return None
    key, arguments = it
    if is_parameter(key):
        return by.get(key[1], it)
    return (key, tuple(replaced(argument, by) for argument in arguments))

def matched(pattern, it, by):
    """Whether a type is an instance of another; `by` gets what the parameters stand for. What is not known fits."""
    if pattern is None or it is None:
        return True
    key, arguments = pattern
    if is_parameter(key):
        if by.get(key[1]) is None:
            by[key[1]] = it
        return True
    if it[0] == "number" and key in PLAIN:
        return True
    if it[0] in ("Arc", "Box") and key != it[0]:    # lent as what it holds
        return matched(pattern, item(it), by)
    return key == it[0] and all([matched(mine, its, by) for mine, its in zip(arguments, it[1])])

# What calls of the toolchain's libraries answer, by the type that they are made on.
def same(it):
    return it

def some(it):
    return of("Option", item(it))

def listed(it):
    return of("Vec", item(it))

def made_or_not(_):
    return of("Result", UNIT, ERROR)

def always(*type_):
    return lambda _: of(*type_)

NAMES = [
    (some, "get get_mut first last pop next next_back peek min_by_key max_by_key"),
    (same, "as_slice as_mut_slice as_ref as_mut min max clone as_str as_bytes wrapping_add wrapping_mul wrapping_sub saturating_add"),
    (same, "saturating_mul saturating_sub div_ceil to_owned borrow swap_remove"),
    (always("bool"), "is_empty is_some is_none is_ok is_err contains starts_with ends_with eq all any is_power_of_two"),
    (always("u32"), "trailing_zeros leading_zeros count_ones"),
    (always("usize"), "len capacity count partition_point"),
    (made_or_not, "push reserve extend_from_slice resize resize_with insert"),
    (always("()"), "push_reserved truncate clear reverse swap sort sort_unstable dedup retain fill copy_within"),
    (listed, "iter iter_mut into_iter drain chunks windows rev skip take step_by chain filter copied cloned peekable"),
    (item, "unwrap_or unwrap"),
    (lambda it: of("Option", it), "checked_add checked_sub checked_mul"),
    (lambda it: of("Option", of("()", item(it), it)), "split_first"),
    (lambda it: of("Vec", of("()", of("usize"), item(it))), "enumerate"),
    (lambda it: of("Result", of("usize"), of("usize")), "binary_search"),
]
ANSWERS = {name: answer for answer, names in NAMES for name in names.split()}

def library_answer(it, name, given):
    """What a call on a value of the toolchain's types answers."""
    if name in ("map", "and_then"):
        return of(it[0], item(given[0]) if given and given[0] and given[0][0] == "call" else None, *it[1][1:])
    if name in ("ok_or", "map_err"):
        return of("Result", item(it), None)
    if name == "take" and it[0] == "Option":
        return it
    return ANSWERS[name](it) if name in ANSWERS else None

def library_made(head, name, given):
    """What a function of the toolchain's types makes."""
    made = "Vec" if head == "String" else head
    if name == "new":
        return of(made, None)
    if name == "with_capacity":
        return of("Result", of(made, None), ERROR)
    if name == "from_slice":
        return of("Result", of(made, item(given[-1])), ERROR)
    if name == "try_clone":
        return of("Result", given[0], ERROR)
    return of(head) if head in PLAIN else None
