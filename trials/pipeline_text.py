"""Pipeline texts: the tree of a text, and its reader.

Written from the rules of docs/LANGUAGE.md alone. The reader takes texts that are well formed and says
in an exception, `NotAPipeline`, what it met where it can't go on; it looks at no limit and at no kind.
"""

import re
import sys
from dataclasses import dataclass

# An expression 200 deep is read by nine calls for each level.
sys.setrecursionlimit(20_000)


class NotAPipeline(Exception):
    """A text that isn't one of the language."""


# Expressions


@dataclass(frozen=True)
class Number:
    word: int


@dataclass(frozen=True)
class Truth:
    holds: bool


@dataclass(frozen=True)
class Name:
    name: str


@dataclass(frozen=True)
class Length:
    """`len(array)`"""

    array: str


@dataclass(frozen=True)
class Unary:
    operator: str
    operand: object


@dataclass(frozen=True)
class Binary:
    operator: str
    left: object
    right: object


@dataclass(frozen=True)
class Choice:
    """`if condition then first else second`"""

    condition: object
    first: object
    second: object


@dataclass(frozen=True)
class Parenthesis:
    inner: object


# Sources, stages and terminals. A row is a tuple of expressions, a pattern a tuple of names.


@dataclass(frozen=True)
class Array:
    array: str


@dataclass(frozen=True)
class Range:
    low: object
    high: object


@dataclass(frozen=True)
class Unfold:
    seed: tuple
    state: tuple
    guard: object
    item: tuple
    next: tuple


@dataclass(frozen=True)
class Zip:
    left: object
    right: object


@dataclass(frozen=True)
class Map:
    pattern: tuple
    row: tuple


@dataclass(frozen=True)
class Filter:
    pattern: tuple
    test: object


@dataclass(frozen=True)
class Take:
    count: object


@dataclass(frozen=True)
class Drop:
    count: object


@dataclass(frozen=True)
class TakeWhile:
    pattern: tuple
    test: object


@dataclass(frozen=True)
class Scan:
    seed: tuple
    state: tuple
    pattern: tuple
    next: tuple


@dataclass(frozen=True)
class FlatMap:
    pattern: tuple
    inner: object


@dataclass(frozen=True)
class Fold:
    seed: tuple
    state: tuple
    pattern: tuple
    next: tuple


@dataclass(frozen=True)
class Print:
    pass


@dataclass(frozen=True)
class Stream:
    source: object
    stages: tuple


@dataclass(frozen=True)
class Program:
    """`inputs` has the kind of each input, `array` or `int`, by its name in order of declaration."""

    inputs: dict
    stream: Stream
    terminal: object


KEYWORDS = set(
    """input array int range unfold with while yield next zip map filter take drop takeWhile scan flatMap
    fold print if then else true false len
    window pairwise index sum count least greatest""".split()
)

TOKEN = re.compile(
    r"""(?P<blank> [ \t\r\n]+ | \#[^\n]* )
      | (?P<number> [0-9]+ )
      | (?P<word> [^\W\d]\w* )
      | (?P<symbol> \|\| | && | -> | == | != | <= | >= | [|<>+\-*/%!(){}\[\],:;] )""",
    re.VERBOSE,
)

COMPARISONS = ("==", "!=", "<", "<=", ">", ">=")


def tokens_of(text):
    """The tokens of a text, each as its kind (number, name, or the token itself) and its text."""
    tokens = []
    at = 0
    while at < len(text):
        found = TOKEN.match(text, at)
        if found is None:
            raise NotAPipeline(f"no token begins with {text[at:at + 10]!r}")
        at = found.end()
        token = found.group()
        if found.lastgroup == "number":
            tokens.append(("number", token))
        elif found.lastgroup == "word" and token not in KEYWORDS:
            tokens.append(("name", token))
        elif found.lastgroup != "blank":
            tokens.append((token, token))
    return tokens


class Reader:
    """Reads the tokens of a text by the productions of the grammar, a method for each."""

    def __init__(self, text):
        self.tokens = tokens_of(text)
        self.at = 0

    def kind(self):
        """The kind of the token that comes, or None at the end."""
        return self.tokens[self.at][0] if self.at < len(self.tokens) else None

    def expect(self, kind):
        """Takes a token of this kind and gives its text."""
        if self.kind() != kind:
            raise NotAPipeline(f"token {self.at} is {self.kind()!r}, not {kind!r}")
        self.at += 1
        return self.tokens[self.at - 1][1]

    def takes(self, kind):
        """Takes the token that comes where it is of this kind, and says whether it was."""
        if self.kind() != kind:
            return False
        self.at += 1
        return True

    def program(self):
        inputs = {}
        while self.takes("input"):
            name = self.expect("name")
            self.expect(":")
            inputs[name] = self.expect("array" if self.kind() == "array" else "int")
            self.expect(";")
        stream, terminal = self.stream(ends_with_terminal=True)
        if self.kind() is not None:
            raise NotAPipeline(f"token {self.at} stands behind the terminal")
        return Program(inputs, stream, terminal)

    def stream(self, ends_with_terminal):
        """A stream, and the terminal behind it, which is None where it has none."""
        source = self.source()
        stages = []
        terminal = None
        while terminal is None and (ends_with_terminal or self.kind() == "|"):
            self.expect("|")
            if ends_with_terminal and self.kind() in ("fold", "print"):
                terminal = self.terminal()
            else:
                stages.append(self.stage())
        return Stream(source, tuple(stages)), terminal

    def inner_stream(self):
        return self.stream(ends_with_terminal=False)[0]

    def source(self):
        if self.takes("array"):
            return Array(self.expect("name"))
        if self.takes("range"):
            self.expect("(")
            low = self.expression()
            self.expect(",")
            high = self.expression()
            self.expect(")")
            return Range(low, high)
        if self.takes("unfold"):
            seed = self.row()
            self.expect("with")
            state = self.pattern()
            self.expect("while")
            guard = self.expression()
            self.expect("yield")
            item = self.row()
            self.expect("next")
            return Unfold(seed, state, guard, item, self.row())
        self.expect("zip")
        self.expect("(")
        left = self.inner_stream()
        self.expect(",")
        right = self.inner_stream()
        self.expect(")")
        return Zip(left, right)

    def stage(self):
        if self.takes("map"):
            pattern = self.pattern_and_arrow()
            return Map(pattern, self.row())
        if self.takes("filter"):
            pattern = self.pattern_and_arrow()
            return Filter(pattern, self.expression())
        if self.takes("take"):
            return Take(self.expression())
        if self.takes("drop"):
            return Drop(self.expression())
        if self.takes("takeWhile"):
            pattern = self.pattern_and_arrow()
            return TakeWhile(pattern, self.expression())
        if self.takes("scan"):
            return Scan(*self.loop())
        self.expect("flatMap")
        pattern = self.pattern_and_arrow()
        self.expect("(")
        inner = self.inner_stream()
        self.expect(")")
        return FlatMap(pattern, inner)

    def terminal(self):
        if self.takes("print"):
            return Print()
        self.expect("fold")
        return Fold(*self.loop())

    def loop(self):
        """What stands behind `scan` and `fold`: the seed, two patterns and the next state."""
        seed = self.row()
        self.expect("with")
        state = self.pattern()
        pattern = self.pattern_and_arrow()
        return seed, state, pattern, self.row()

    def pattern_and_arrow(self):
        pattern = self.pattern()
        self.expect("->")
        return pattern

    def row(self):
        return self.braced(self.expression)

    def pattern(self):
        return self.braced(lambda: self.expect("name"))

    def braced(self, part):
        """One part, or parts in braces with commas between them."""
        if not self.takes("{"):
            return (part(),)
        parts = [part()]
        while self.takes(","):
            parts.append(part())
        self.expect("}")
        return tuple(parts)

    def expression(self):
        if self.takes("if"):
            condition = self.expression()
            self.expect("then")
            first = self.expression()
            self.expect("else")
            return Choice(condition, first, self.expression())
        return self.level(("||",), self.conjunction)

    def conjunction(self):
        return self.level(("&&",), self.comparison)

    def comparison(self):
        left = self.sum()
        if self.kind() in COMPARISONS:
            operator = self.expect(self.kind())
            return Binary(operator, left, self.sum())
        return left

    def sum(self):
        return self.level(("+", "-"), self.product)

    def product(self):
        return self.level(("*", "/", "%"), self.unary)

    def level(self, operators, operand):
        """Operands with operators of one level between them, which group to the left."""
        left = operand()
        while self.kind() in operators:
            operator = self.expect(self.kind())
            left = Binary(operator, left, operand())
        return left

    def unary(self):
        if self.kind() in ("-", "!"):
            operator = self.expect(self.kind())
            return Unary(operator, self.unary())
        return self.atom()

    def atom(self):
        if self.kind() == "number":
            return Number(int(self.expect("number")))
        if self.kind() in ("true", "false"):
            return Truth(self.expect(self.kind()) == "true")
        if self.kind() == "name":
            return Name(self.expect("name"))
        if self.takes("len"):
            self.expect("(")
            array = self.expect("name")
            self.expect(")")
            return Length(array)
        self.expect("(")
        inner = self.expression()
        self.expect(")")
        return Parenthesis(inner)


def program_of(text):
    """The program that a text is."""
    return Reader(text).program()
