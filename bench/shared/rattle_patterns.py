"""The names of a function's body in their scopes, and patterns, which bind them."""
import re
from rattle_calls import Calls
from rattle_types import fault, item, replaced

class Patterns(Calls):
    """What the names of a body are, while it is read."""
    def __init__(self, house, function, by):
        super().__init__(house, function, by)
        self.scopes = [{name: replaced(it, by) for name, it in function.given}]
        if function.of_self:
            self.scopes[0]["self"] = self.own

    def local(self, name):
        """Whether a name is of this function, and its type."""
        scope = next((it for it in reversed(self.scopes) if name in it), None)
        return (scope is not None, scope and scope[name])

    def read_type(self):
        return replaced(self.house.type(self, self.function.generics, self.function.owner), self.by)

    def bound(self, begin, it):
        """Reads the pattern that begins at a place before, now that its type is known."""
        after, self.at = self.at, begin
        self.pattern(it)
        self.at = after

    def pattern(self, it, alone=False):
        """Reads a pattern, and binds its names; `alone` where `|` is no part of it."""
        while self.peek() in ("&", "ref", "mut", "box"):
            self.take()
        token = self.peek()
        if token in ("(", "["):
            self.row_of_patterns(it)
        elif token in ("..", "_") or re.match(r"[\d\"']|b['\"]", token):
            self.take()
        elif self.has("-"):
            self.take()
        else:
            path = [self.take()]
            while self.has("::"):
                path.append(self.take())
            self.named_pattern(path, it)
        while self.peek() in ("..=", "..", "@"):
            self.take()
            if self.peek() not in ("=>", "if"):
                self.pattern(it)
        if not alone and self.has("|"):
            self.pattern(it)

    def row_of_patterns(self, it):
        open_, place = self.take(), 0
        while not (self.has(")") or self.has("]")):
            parts = it[1] if it and it[0] == "()" else ()
            self.pattern(item(it) if open_ == "[" else parts[place] if place < len(parts) else None)
            self.has(",")
            place += 1

    def named_pattern(self, path, it):
        if len(path) == 1 and self.peek() not in ("(", "{") and not re.match(r"[A-Z]", path[0]):
            self.scopes[-1][path[0]] = it
            return
        parts = self.parts_of(path, it)
        if self.has("("):
            place = 0
            while not self.has(")"):
                self.pattern(parts.get(str(place)))
                self.has(",")
                place += 1
        elif self.has("{"):
            while not self.has("}"):
                self.field_pattern(parts)
                self.has(",")

    def field_pattern(self, parts):
        if self.has(".."):
            return
        while self.peek() in ("ref", "mut"):
            self.take()
        name = self.take()
        if self.has(":"):
            self.pattern(parts.get(name))
        else:
            self.scopes[-1][name] = parts.get(name)

    def parts_of(self, path, it):
        """The types of the parts that a pattern with this name has."""
        if path[-1] in ("Some", "Ok", "Err"):
            return {"0": fault(it) if path[-1] == "Err" else item(it)}
        found = self.found(path)
        if not found or found[0] != "type":
            return {}
        _, key, variant = found
        if key in self.house.aliases:
            it = self.house.named(self, path[:len(path) - len(variant)], ())
            key = it[0]
        whole = it if it and it[0] == key else self.house.unknown(key)
        return self.house.parts(whole, variant[0] if variant else None)
