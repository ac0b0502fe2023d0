"""What crates declare: their names, types and functions, read from their sources."""
import collections, pathlib, re
from rattle_tokens import Reader, tokens_of
from rattle_types import UNIT, of, parameter, replaced

ROOT = pathlib.Path(__file__).resolve().parents[2]
Function = collections.namedtuple("Function", "crate module owner name generics of_self trait given answer body")
KINDS = {"struct": "type", "enum": "type", "trait": "trait", "fn": "function", "const": "const", "static": "const"}

def crates_below(tops):
    """These crates and those that they stand on."""
    lines = [line.split("#")[0].split(":") for line in (ROOT / "crates.txt").read_text().split("\n")]
    below = {line[0].split()[0]: line[1].split() for line in lines if len(line) > 1}
    crates, todo = set(), list(tops)
    while todo:
        crate = todo.pop()
        if crate in below and crate not in crates:
            crates.add(crate)
            todo += below[crate]
    return crates

def readers_of(crates):
    """A reader for each file of crates, without tests."""
    out = []
    for crate in sorted(crates):
        source = ROOT / "crates" / crate / "src"
        for path in sorted(source.rglob("*.rt")):
            parts = path.relative_to(source).with_suffix("").parts
            if "tests" not in parts:
                module = "" if parts in (("lib",), ("main",)) else "::".join(parts)
                out.append(Reader(tokens_of(path.read_text()), crate, module))
    return out

class Names:
    """What the names of each module stand for."""
    def __init__(self, crates):
        self.crates, self.aliases = crates, {}
        self.names = collections.defaultdict(dict)      # (crate, module) -> name -> (kind, what it stands for)

    def declare(self, reader):
        """Notes which names a module gives to types, functions and constants, and which it uses."""
        names = self.names[reader.crate, reader.module]
        while reader.left():
            token = reader.take()
            if token == "use":
                self.use(reader, [], names)
            elif token == "type":
                names[reader.peek()] = ("type", (reader.crate, reader.module, reader.peek()))
                self.alias(reader)
            elif token in KINDS and re.match(r"(?!fn$)\w", reader.peek()):
                name = reader.take()
                names[name] = (KINDS[token], (reader.crate, reader.module, name))
            elif token == "mod":
                name = reader.take()
                names.setdefault(name, ("module", (reader.crate, f"{reader.module}::{name}".lstrip(":"))))
            elif token in ("macro_rules", "impl"):
                reader.pass_to("{")
                reader.balanced()
            elif token == "{":
                reader.at -= 1
                reader.balanced()

    def use(self, reader, path, names):
        """Reads what stands after `use`."""
        if reader.peek() == "{":
            inner = reader.within(reader.balanced())
            while inner.left():
                self.use(inner, path[:], names)
                inner.has(",")
            return
        path = path + [reader.take()]
        if reader.has("::"):
            self.use(reader, path, names)
            return
        name = reader.take() if reader.has("as") else path[-1]
        if path[-1] == "self":
            path.pop()
            name = path[-1]
        names.setdefault(name, ("use", path))

    def alias(self, reader):
        name, generics, tokens = reader.take(), generics_of(reader), []
        while reader.peek() != ";":
            tokens.append(reader.take())
        self.aliases[reader.crate, reader.module, name] = (list(generics), tokens[1:])

    def first(self, crate, module, head, seen):
        """What the first name of a path stands for."""
        if head == "crate":
            return ("module", (crate, ""))
        if head == "self":
            return ("module", (crate, module))
        if head == "super":
            return ("module", (crate, module.rpartition("::")[0]))
        if head in self.names[crate, module] and (crate, module, head) not in seen:
            kind, what = self.names[crate, module][head]
            if kind != "use":
                return (kind, what)
            seen += ((crate, module, head),)
            if what[0] in self.crates:
                return self.find(what[0], "", ["crate"] + what[1:], seen)
            return self.find(crate, "", what, seen)
        return ("module", (head, "")) if head in self.crates else None

    def find(self, crate, module, path, seen=()):
        """What a path stands for, and the names after it: (kind, what, names). None for what is of the toolchain."""
        here, rest = self.first(crate, module, path[0], seen), path[1:]
        while rest and here and here[0] == "module":
            here, rest = self.find(*here[1], [rest[0]], seen), rest[1:]
        if not here:
            return None
        return (*here, rest) if len(here) == 2 else (here[0], here[1], here[2] + rest)

def generics_of(reader):
    """Reads <'a, T: Bound, ..>: the names of the types."""
    parts = reader.angles() if reader.peek() == "<" else []
    return [part[0] for part in parts if not part[0].startswith("'") and part[0] != "const"]

class Types(Names):
    """Reads types."""
    def type(self, reader, generics, own):
        bounds = False
        while reader.peek() in ("&", "&&", "mut", "dyn", "impl", "*", "const") or reader.peek().startswith("'"):
            bounds |= reader.take() in ("dyn", "impl")
        if reader.peek() == "[":
            return of("Vec", self.type(reader.within(reader.balanced()), generics, own))
        if reader.peek() == "(":
            inner, parts = reader.within(reader.balanced()), []
            while inner.left():
                parts.append(self.type(inner, generics, own))
                inner.has(",")
            return of("()", *parts)
        if reader.has("!"):
            return UNIT
        it = self.path_type(reader, generics, own)
        while bounds and reader.has("+"):
            self.type(reader, generics, own)
        return it

    def path_type(self, reader, generics, own):
        path, given = [reader.take()], ()
        while reader.peek() in ("<", "::", "("):
            if reader.peek() == "<":
                given = self.arguments(reader, generics, own)
            elif reader.has("::"):
                if reader.peek() != "<":
                    path.append(reader.take())
            elif path[-1] in ("Fn", "FnMut", "FnOnce", "fn"):
                reader.balanced()
                return of("call", self.type(reader, generics, own) if reader.has("->") else UNIT)
            else:
                break
        return self.named(reader, path, given, generics, own)

    def arguments(self, reader, generics, own):
        parts = [part for part in reader.angles() if not part[0].startswith("'")]
        return tuple(self.type(reader.within(part), generics, own) for part in parts)

    def named(self, reader, path, given, generics=(), own=None):
        """The type that a path names in the reader's module."""
        if path == ["Self"]:
            return own
        if len(path) == 1 and path[0] in generics:
            return parameter(path[0])
        found = self.find(reader.crate, reader.module, path)
        if found is None:
            return of(path[-1], *given) if path[0] not in generics and path[0] != "Self" else None
        if found[0] not in ("type", "trait"):
            return None
        if found[1] not in self.aliases:
            return of(found[1], *given)
        names, tokens = self.aliases[found[1]]
        return replaced(self.type(Reader(tokens, found[1][0], found[1][1]), names, None), dict(zip(names, given)))

class House(Types):
    """The sources of crates: for each type its fields, variants and functions."""
    def __init__(self, tops):
        super().__init__(crates_below(tops))
        self.types, self.variants, self.traits = {}, {}, {}
        self.functions, self.methods = {}, collections.defaultdict(list)
        readers = readers_of(self.crates)
        for reader in readers:
            self.declare(reader)
        for reader in readers:
            reader.at = 0
            self.define(reader, None)

    def define(self, reader, owner):
        """Reads the items of a module or of an impl. `owner` is (generics, type, trait)."""
        while reader.left():
            token = reader.take()
            if token == "macro_rules":
                reader.pass_to("{")
                reader.balanced()
            elif token in ("use", "mod", "static", "type") or token == "const" and reader.peek() != "fn":
                reader.pass_to(";")
            elif token == "fn":
                self.function(reader, owner)
            elif token in ("struct", "enum", "trait", "impl"):
                getattr(self, token)(reader)

    def fields(self, reader):
        """Reads {name: type, ..} or (type, ..): for each name the tokens of its type."""
        named, inner, out = reader.peek() == "{", reader.within(reader.balanced()), {}
        while inner.left():
            if inner.has("pub") and inner.peek() == "(":
                inner.balanced()
            name = inner.take() if named else str(len(out))
            if named:
                inner.take(":")
            begin = inner.at
            self.type(inner, (), None)
            out[name] = inner.tokens[begin:inner.at]
            inner.has(",")
        return out

    def struct(self, reader):
        name, generics = reader.take(), generics_of(reader)
        while reader.peek() not in ("{", "(", ";"):
            reader.take()
        fields = self.fields(reader) if reader.peek() != ";" else {}
        self.types[reader.crate, reader.module, name] = (generics, fields)

    def enum(self, reader):
        name, generics = reader.take(), generics_of(reader)
        key = (reader.crate, reader.module, name)
        self.types[key] = (generics, {})
        inner, variants = reader.within(reader.balanced()), {}
        while inner.left():
            variant = inner.take()
            variants[variant] = self.fields(inner) if inner.peek() in ("{", "(") else {}
            while inner.left() and not inner.has(","):
                inner.take()
        self.variants[key] = variants

    def trait(self, reader):
        name = reader.take()
        generics = generics_of(reader)
        reader.pass_to("{")
        key = (reader.crate, reader.module, name)
        self.traits[key] = []
        self.define(reader.within(reader.balanced()), (generics, parameter("Self"), of(key)))

    def impl(self, reader):
        generics, trait = generics_of(reader), None
        own = self.type(reader, generics, None)
        if reader.has("for"):
            trait, own = own, self.type(reader, generics, None)
        reader.pass_to("{")
        self.define(reader.within(reader.balanced()), (generics, own, trait))

    def parameters(self, reader, generics, own):
        """Reads (&self, name: type, ..): whether there is a self, and the others with their types."""
        inner, given, of_self = reader.within(reader.balanced()), [], False
        while inner.left():
            while inner.peek() in ("&", "mut") or inner.peek().startswith("'"):
                inner.take()
            name = inner.take()
            if name == "self":
                of_self = True
            else:
                inner.take(":")
                given.append((name, self.type(inner, generics, own)))
            inner.has(",")
        return of_self, tuple(given)

    def function(self, reader, owner):
        name = reader.take()
        outer, own, trait = owner or ((), None, None)
        generics = (*outer, *generics_of(reader), *(["Self"] if own == parameter("Self") else []))
        of_self, given = self.parameters(reader, generics, own)
        answer = self.type(reader, generics, own) if reader.has("->") else UNIT
        while reader.peek() not in ("{", ";"):
            reader.take()
        body = tuple(reader.balanced()) if reader.peek() == "{" else reader.take() and None
        made = Function(reader.crate, reader.module, own, name, generics, of_self, trait, given, answer, body)
        if own is None:
            self.functions[reader.crate, reader.module, name] = made
        elif own == parameter("Self"):
            self.traits[trait[0]].append(made)
        else:
            self.methods[own[0], name].append(made)

    # ---- types of parts
    def part(self, key, tokens, names):
        """The type of a field of a type with these parameters."""
        return self.type(Reader(tokens, key[0], key[1]), names, of(key, *map(parameter, names)))

    def parts(self, it, variant=None):
        """The types of the fields of a value, or of a variant of it."""
        names, fields = self.types.get(it[0], ((), {}))
        if variant:
            fields = self.variants.get(it[0], {}).get(variant, {})
        by = dict(zip(names, it[1]))
        return {name: replaced(self.part(it[0], tokens, names), by) for name, tokens in fields.items()}

    def unknown(self, key):
        """A type of which the arguments are not known."""
        return of(key, *(None for _ in self.types.get(key, ((), {}))[0]))
