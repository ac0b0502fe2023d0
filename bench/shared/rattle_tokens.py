"""The sources of a crate as tokens, without contracts and what else is for the proof alone."""
import re

TOKEN = re.compile(r"""
    \s+ | //[^\n]*
    | (?P<life>'[a-z_]\w*\b(?!'))
    | (?P<text>b?"(?:\\.|[^"\\])*"|b?'(?:\\.|[^'\\])+')
    | (?P<number>\d\w*(?:\.\d+)?)
    | (?P<name>\w+)
    | (?P<mark>\.\.=|\.\.\.|<<=|->|=>|::|\.\.|&&|\|\||<<|[-+*/%&|^<>=!]=|.)""", re.S | re.X)
PROOF = re.compile(r"\s*(?:(?:pub(?:\([^)]*\))? )?ghost|requires|ensures|invariant|decreases|proves)\b")

def tokens_of(text):
    """The tokens of a file."""
    lines, depth = [], 0
    for line in text.split("\n"):
        if depth or PROOF.match(line):
            depth += line.count("{") - line.count("}") if not line.lstrip().startswith("//") else 0
            lines.append(";" if line.endswith(";") and not depth else "")
        elif not line.lstrip().startswith(("#[", "#![", "//")):
            lines.append(line)
    return [found.group(0) for found in TOKEN.finditer("\n".join(lines)) if found.lastgroup]

class Reader:
    """The tokens of a file, or of a part of it, from a place on, with the module that they stand in."""
    def __init__(self, tokens, crate, module):
        self.tokens, self.crate, self.module, self.at = tokens, crate, module, 0

    def within(self, tokens):
        """A reader of a part."""
        return Reader(tokens, self.crate, self.module)

    def peek(self, more=0):
        return self.tokens[self.at + more] if self.at + more < len(self.tokens) else ""

    def take(self, wanted=None):
        token = self.peek()
        if not token or wanted is not None and token != wanted:
            near = " ".join(self.tokens[self.at:self.at + 8])
            raise SyntaxError(f"{self.crate}/{self.module}: {wanted or 'more'} is due before {near}")
        self.at += 1
        return token

    def has(self, token):
        """Passes over a token, if it is the next one, and tells whether it was."""
        if self.peek() != token:
            return False
        self.at += 1
        return True

    def left(self):
        return self.at < len(self.tokens)

    def pass_to(self, *marks):
        """Passes over what stands before the first of these marks, with all that is in brackets."""
        while self.peek() not in marks:
            if self.peek() in ("(", "{", "["):
                self.balanced()
            else:
                self.take()

    def balanced(self):
        """Passes over what stands between a bracket and its partner, and gives it."""
        begin, depth = self.at, 0
        while True:
            token = self.take()
            depth += (token in ("(", "[", "{")) - (token in (")", "]", "}"))
            if not depth:
                return self.tokens[begin + 1:self.at - 1]

    def angles(self):
        """Passes over <..>, and gives it by its commas."""
        parts, depth = [[]], 0
        while True:
            token = self.take()
            depth += {"<": 1, ">": -1, "(": 1, ")": -1, "[": 1, "]": -1}.get(token, 0)
            if not depth:
                return [part for part in parts if part]
            if token == "," and depth == 1:
                parts.append([])
            elif parts[-1] or depth > 1 or token != "<":
                parts[-1].append(token)
