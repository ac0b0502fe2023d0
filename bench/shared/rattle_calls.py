"""Who is called: by the type of what a call is made on, or by the path of a function."""
from rattle_tokens import Reader
from rattle_types import PLAIN, fault, item, library_answer, library_made, matched, of, parameter, replaced

class Calls(Reader):
    """Notes the calls of a function's body."""
    def __init__(self, house, function, by):
        super().__init__(function.body, function.crate, function.module)
        self.house, self.function, self.by = house, function, by
        self.own, self.answer = replaced(function.owner, by), replaced(function.answer, by)
        self.calls, self.unsure = [], []

    def found(self, path):
        """What a path stands for in this function."""
        return ("type", self.own[0], path[1:]) if path[0] == "Self" else self.house.find(self.crate, self.module, path)

    def called(self, function, by, own=None):
        """Notes a call, and gives what it answers."""
        if own is not None and function.owner not in (None, parameter("Self")):
            matched(function.owner, own, by)
        self.calls.append((function, tuple(sorted((name, it) for name, it in by.items() if name in function.generics))))
        return replaced(function.answer, by)

    # ---- functions of types
    def own_method(self, it, name, given):
        """The function of a type of the crates that a call is of, with what its parameters stand for."""
        for function in self.house.methods[it[0], name]:
            by = {}
            fits = matched(function.owner, it, by)
            fits &= all([matched(mine, its, by) for (_, mine), its in zip(function.given, given)])
            if fits and not self.other_from(function, name, given):
                return function, by
        for trait, functions in self.house.traits.items():
            for function in functions:
                if function.name == name and function.body is not None and self.has_trait(it[0], trait):
                    return function, {"Self": it}
        return None

    def other_from(self, function, name, given):
        """Whether a `from` is one of another type."""
        return name == "from" and given[0] and function.given[0][1][0] != given[0][0]

    def has_trait(self, key, trait):
        impls = (made for (own, _), all_made in self.house.methods.items() if own == key for made in all_made)
        return any(made.trait and made.trait[0] == trait for made in impls)

    def is_a_name_of_methods(self, name):
        return any(its == name for (_, its), all_made in self.house.methods.items() if all_made)

    def method_of(self, it, name, given, on_value=False, quiet=False):
        """A call of a type's function, or on a value of the type."""
        if it and (isinstance(it[0], tuple) or not on_value):
            found = self.own_method(it, name, given)
            if found:
                return self.called(*found, it)
        if it and it[0] in ("Arc", "Box") and on_value:
            answer = library_answer(it, name, given)
            return answer or self.method_of(item(it), name, given, True, quiet)
        if it and (not isinstance(it[0], tuple) or name in ("clone", "eq", "cmp", "into")):
            return library_answer(it, name, given)
        if not quiet and self.is_a_name_of_methods(name):
            self.unsure.append(name)
        return None

    def tried(self, it):
        """`?`: where the fault changes, its `from` is called."""
        mine, its = fault(self.answer), fault(it)
        if it and it[0] == "Result" and self.answer[0] == "Result" and mine and its and mine != its:
            self.method_of(mine, "from", [its], quiet=True)
        return item(it)

    # ---- functions by their paths
    def call(self, path, turbofish, given):
        name = path[-1]
        if len(path) == 1 and name in ("Some", "Ok", "Err"):
            return self.wrapped(name, given)
        if path[0] in self.by:
            return self.method_of(self.by[path[0]], name, given) if len(path) == 2 else None
        found = self.found(path)
        if found is None:
            return library_made(path[0], name, given)
        kind, key, rest = found
        if kind == "function":
            return self.plain(self.house.functions[key], turbofish, given)
        if kind == "type" and not rest:
            return self.house.unknown(key)
        if kind == "type" and rest[0] in self.house.variants.get(key, {}):
            return self.variant(key, rest[0], given)
        if kind == "trait":
            return self.method_of(given[0], name, given[1:], on_value=True) if given else None
        return self.of_type(path, turbofish, given)

    def wrapped(self, name, given):
        if name == "Some":
            return of("Option", *given)
        return of("Result", *given, fault(self.answer)) if name == "Ok" else of("Result", None, *given)

    def of_type(self, path, turbofish, given):
        """TYPE::FUNCTION(..)."""
        own = self.own if path[0] == "Self" else self.house.named(self, path[:-1], turbofish)
        if own and not isinstance(own[0], tuple):
            return library_made(own[0], path[-1], given)
        if own and not own[1]:
            own = self.house.unknown(own[0])
        methods = self.house.methods[own[0], path[-1]] if own else []
        if any(function.of_self and len(given) == len(function.given) + 1 for function in methods):
            return self.method_of(given[0] or own, path[-1], given[1:], on_value=True)
        return self.method_of(own, path[-1], given)

    def plain(self, function, turbofish, given):
        by = dict(zip(function.generics, turbofish))
        for (_, mine), its in zip(function.given, given):
            matched(mine, its, by)
        return self.called(function, by)

    def variant(self, key, name, given):
        return self.filled(key, self.house.variants[key][name], {str(place): it for place, it in enumerate(given)})

    def filled(self, key, fields, given):
        """A value of a type, by the types of what its fields are given."""
        names, by = self.house.types[key][0], {}
        for name, it in given.items():
            if name in fields:
                matched(self.house.part(key, fields[name], names), it, by)
        return of(key, *(by.get(name) for name in names))

    def value(self, path):
        """A constant, a function or a variant that is named."""
        if path[-1] == "None":
            return of("Option", None)
        found = self.found(path)
        if found and found[0] == "type":
            return self.house.unknown(found[1])
        if found and found[0] == "function":
            return of("call", self.called(self.house.functions[found[1]], {}))
        return of(path[0]) if path[0] in PLAIN else None

    def field(self, it, name):
        while it and it[0] in ("Arc", "Box"):
            it = item(it)
        if it and it[0] == "()":
            return it[1][int(name)] if name.isdigit() and int(name) < len(it[1]) else None
        return self.house.parts(it).get(name) if it and it[0] in self.house.types else None
