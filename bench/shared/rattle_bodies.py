"""The bodies of functions, read as their types are, so that it is found out who is called."""
import re
from rattle_patterns import Patterns
from rattle_types import ERROR, NEVER, UNIT, item, of, replaced

BINARY = ["= += -= *= /= %= &= |= ^= <<= >>=", ".. ..=", "||", "&&", "== != < > <= >=", "|", "^", "&", "<< >>", "+ -", "* / %"]
LEVEL = {mark: level for level, marks in enumerate(BINARY) for mark in marks.split()}
SUFFIX = re.compile(r"(u8|u16|u32|u64|u128|usize|i32|i64)$")
ENDS = (")", "]", "}", "{", ",", ";")

class Body(Patterns):
    """A function's body, read from its first token to its last."""
    def __init__(self, house, function, by):
        super().__init__(house, function, by)
        self.statements()

    # ---- statements
    def block(self):
        self.take("{")
        self.scopes.append({})
        answer = self.statements()
        self.scopes.pop()
        self.take("}")
        return answer

    def statements(self):
        answer = UNIT
        while self.left() and self.peek() != "}":
            if self.has(";"):
                answer = UNIT
            elif self.has("let"):
                self.let()
            elif self.peek() in ("const", "use"):
                self.pass_to(";")
            else:
                answer = self.statement()
        return answer

    def statement(self):
        """An expression; one that ends with a block goes on after it by a dot alone."""
        if self.peek() not in ("if", "match", "loop", "while", "for", "{") and not self.peek().startswith("'"):
            return self.expression(0)
        it = self.primary(True)
        return self.postfix(it) if self.peek() in (".", "?") else it

    def let(self):
        begin = self.at
        self.pass_to("=", ";", ":")
        it = self.read_type() if self.has(":") else None
        if self.has("="):
            value = self.expression(0)
            it = it or value
        if self.has("else"):
            self.block()
        self.bound(begin, it)

    # ---- expressions
    def expression(self, level, struct=True):
        """Reads what binds at least so tightly; `struct` where a name may be followed by fields."""
        it = self.prefix(struct)
        while True:
            if self.has("as"):
                it = self.read_type()
                continue
            mark = self.peek()
            if mark == ">" and self.peek(1) in (">", ">="):
                mark += self.peek(1)
            at = LEVEL.get(mark)
            if at is None or at < level:
                return it
            self.at += 2 if mark in (">>", ">>=") else 1
            if at == LEVEL[".."] and self.peek() in ENDS:
                it = of("Range", it)
            else:
                it = self.both(at, it, self.expression(at if at == 0 else at + 1, struct))

    def both(self, level, it, other):
        """What two operands come to."""
        number = it if it and it[0] != "number" else other
        if level == 0:
            return UNIT
        if level == LEVEL[".."]:
            return of("Range", number)
        return of("bool") if level <= LEVEL["=="] else number

    def prefix(self, struct):
        if self.peek() in ("-", "!", "*", "&", "&&"):
            self.take()
            self.has("mut")
            return self.expression(LEVEL["*"] + 1, struct)
        if self.has("..") or self.has("..="):
            return of("Range", self.expression(2, struct) if self.peek() not in ENDS else of("usize"))
        return self.postfix(self.primary(struct))

    def postfix(self, it):
        while self.peek() in ("?", ".", "[", "("):
            if self.has("?"):
                it = self.tried(it)
            elif self.has("."):
                it = self.member(it)
            elif self.has("["):
                index = self.expression(0)
                self.take("]")
                it = it if index and index[0] == "Range" else item(it)
            else:
                self.arguments()
                it = item(it) if it and it[0] == "call" else None
        return it

    def arguments(self):
        given = []
        self.take("(")
        while not self.has(")"):
            given.append(self.expression(0))
            self.has(",")
        return given

    def member(self, it):
        name = self.take()
        if self.has("::"):
            self.angles()
        if self.peek() == "(":
            return self.method_of(it, name, self.arguments(), on_value=True)
        for part in name.split("."):
            it = self.field(it, part)
        return it

    # ---- what stands first
    def primary(self, struct):
        token = self.peek()
        if token.startswith("'") and self.peek(1) == ":":
            self.at += 2
            return self.primary(struct)
        if token in self.WORDS:
            return self.WORDS[token](self)
        if re.match(r"\d", token):
            suffix = SUFFIX.search(self.take())
            return of(suffix.group(1) if suffix else "number")
        if re.match(r"b?['\"]", token):
            return of("char" if self.take()[0] == "'" else "str")
        return self.path(struct)

    def group(self):
        given = self.arguments()
        return given[0] if len(given) == 1 and self.tokens[self.at - 2] != "," else of("()", *given)

    def array(self):
        self.take("[")
        it = None
        while not self.has("]"):
            if not self.has(";") and not self.has(","):
                it = self.expression(0) or it
        return of("Vec", it)

    def condition(self):
        """A condition, which may match a pattern."""
        while True:
            if self.has("let"):
                begin = self.at
                self.pass_to("=")
                self.take("=")
                self.bound(begin, self.expression(LEVEL["=="], False))
            else:
                self.expression(LEVEL["=="], False)
            if not (self.has("&&") or self.has("||")):
                return

    def if_(self):
        self.take("if")
        self.scopes.append({})
        self.condition()
        it = self.block()
        self.scopes.pop()
        if self.has("else"):
            other = self.if_() if self.peek() == "if" else self.block()
            it = other if it in (None, NEVER, UNIT) else it
        return it

    def match(self):
        self.take("match")
        subject, it = self.expression(0, False), None
        self.take("{")
        while not self.has("}"):
            self.scopes.append({})
            self.has("|")
            self.pattern(subject)
            if self.has("if"):
                self.condition()
            self.take("=>")
            one = self.statement()
            it = one if it in (None, NEVER, UNIT, of("Option", None)) else it
            self.scopes.pop()
            self.has(",")
        return it

    def loop(self):
        word = self.take()
        self.scopes.append({})
        if word == "while":
            self.condition()
        elif word == "for":
            begin = self.at
            self.pass_to("in")
            self.take("in")
            self.bound(begin, item(self.expression(0, False)))
        self.block()
        self.scopes.pop()
        return UNIT

    def leaves(self):
        self.take()
        if self.peek().startswith("'"):
            self.take()
        if self.peek() not in ENDS:
            self.expression(0)
        return NEVER

    def truth(self):
        self.take()
        return of("bool")

    def closure(self):
        self.has("move")
        self.scopes.append({})
        if not self.has("||"):
            self.take("|")
            while not self.has("|"):
                begin = self.at
                self.pattern(None, alone=True)
                if self.has(":"):
                    self.bound_alone(begin, self.read_type())
                self.has(",")
        if self.has("->"):
            self.read_type()
        it = self.expression(1)
        self.scopes.pop()
        return of("call", it)

    def bound_alone(self, begin, it):
        after, self.at = self.at, begin
        self.pattern(it, alone=True)
        self.at = after

    WORDS = {"if": if_, "match": match, "loop": loop, "while": loop, "for": loop, "return": leaves, "break": leaves,
             "continue": leaves, "move": closure, "|": closure, "||": closure, "{": block, "(": group, "[": array,
             "true": truth, "false": truth}

    def path(self, struct):
        """A name, with what is called or made by it."""
        path, given = [], ()
        if self.peek() == "<":
            self.angles()
            path = ["?"]
        else:
            path = [self.take()]
        while self.has("::"):
            if self.peek() == "<":
                given = self.house.arguments(self, self.function.generics, self.function.owner)
                given = tuple(replaced(it, self.by) for it in given)
            else:
                path.append(self.take())
        if self.peek() == "!" and self.peek(1) in ("(", "[", "{"):
            return self.macro(path[-1])
        is_local, it = self.local(path[0]) if len(path) == 1 else (False, None)
        if is_local:
            return it
        if struct and self.peek() == "{" and re.match(r"[A-Z]", path[-1]):
            return self.literal(path)
        return self.call(path, given, self.arguments()) if self.peek() == "(" else self.value(path)

    def macro(self, name):
        """A macro's call: of `vec![in alloc; item; count]` the parts are read."""
        self.take("!")
        inner = self.balanced()
        if name != "vec" or inner[:1] != ["in"]:
            return NEVER
        kept, self.tokens, self.at = (self.tokens, self.at), inner, list(inner).index(";") + 1
        it = self.expression(0)
        while self.left():
            if not self.has(";"):
                self.expression(0)
        self.tokens, self.at = kept
        return of("Result", of("Vec", it), ERROR)

    def literal(self, path):
        """A struct or a variant, made by its fields."""
        self.take("{")
        given = {}
        while not self.has("}"):
            if self.has(".."):
                self.expression(0)
                continue
            name = self.take()
            given[name] = self.expression(0) if self.has(":") else self.local(name)[1]
            self.has(",")
        found = self.found(path)
        if path[0] == "Self" or not found or found[0] != "type":
            return self.own if path[0] == "Self" else None
        if found[1] in self.house.aliases:
            return self.house.named(self, path, ())
        return self.filled(found[1], self.house.types[found[1]][1], given)
