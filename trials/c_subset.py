"""A recogniser of the C texts that strymonas writes: which forms they have, by docs/C_SUBSET.md alone.

`program_of` reads a text and raises `NotInSubset` where it isn't one of the subset. The program that it
gives has its counts, and its text in the layout of that page.
"""

import re
import sys
from dataclasses import dataclass

# Brackets nested 1,024 deep are read by up to three calls for each.
sys.setrecursionlimit(20_000)


class NotInSubset(Exception):
    """A text that isn't one of the subset."""


INCLUDE = '#include "pipeline.h"\n'

TOKEN = re.compile(r"(?P<blank>\s+)|(?P<token>[A-Za-z_0-9]+|==|&&|\|\||[(){}\[\];,=<!+\-*/%^])")

CONSTANT = re.compile(r"(0|[1-9][0-9]*)ULL")

NAME = re.compile(r"([vani])(0|[1-9][0-9]*)")

MOST_NESTED = 1024


@dataclass(frozen=True)
class Set:
    variable: str
    word: str


@dataclass(frozen=True)
class Read:
    variable: str
    array: str
    index: str


@dataclass(frozen=True)
class If:
    test: str
    first: tuple
    second: tuple


@dataclass(frozen=True)
class Loop:
    guard: str
    body: tuple


@dataclass(frozen=True)
class Emit:
    word: str


@dataclass(frozen=True)
class EndRow:
    pass


@dataclass(frozen=True)
class Return:
    number: str


@dataclass(frozen=True)
class Program:
    """`parameters` has `array` or `int` for each parameter; words and tests are kept as text, written
    as in the layout."""

    parameters: tuple
    variables: int
    body: tuple

    def loops(self):
        return sum(isinstance(statement, Loop) for statement in statements_in(self.body))

    def nesting(self):
        return nesting_of(self.body)

    def statements(self):
        return sum(1 for _ in statements_in(self.body))

    def layout(self):
        """The text that the layout gives this program."""
        parameters = [
            f"const uint64_t *a{k}, uint64_t n{k}" if kind == "array" else f"uint64_t i{k}"
            for k, kind in enumerate(self.parameters)
        ]
        lines = [f"int pipeline({', '.join(parameters) or 'void'}) {{"]
        lines += [f"uint64_t v{k} = 0ULL;" for k in range(self.variables)]
        lines += lines_of(self.body) + ["return 0;", "}"]
        return INCLUDE + "".join(indented(lines))


def blocks_of(statement):
    """The blocks of statements that stand directly in one."""
    match statement:
        case If(_, first, second):
            return (first, second)
        case Loop(_, body):
            return (body,)
    return ()


def statements_in(block):
    for statement in block:
        yield statement
        for inner in blocks_of(statement):
            yield from statements_in(inner)


def nesting_of(block):
    """The most loops inside one another."""
    return max(
        (
            isinstance(statement, Loop) + max(map(nesting_of, blocks_of(statement)), default=0)
            for statement in block
        ),
        default=0,
    )


def lines_of(block):
    """The lines of a block, without the blanks before them."""
    lines = []
    for statement in block:
        match statement:
            case Set(variable, word):
                lines.append(f"{variable} = {word};")
            case Read(variable, array, index):
                lines.append(f"{variable} = {array}[{index}];")
            case If(test, first, second):
                lines += [f"if {test} {{", *lines_of(first), "} else {", *lines_of(second), "}"]
            case Loop(guard, body):
                lines += ["while (1) {", f"if {guard} {{ }} else {{ break; }}", *lines_of(body), "}"]
            case Emit(word):
                lines.append(f"EMIT({word});")
            case EndRow():
                lines.append("ENDROW();")
            case Return(number):
                lines.append(f"return {number};")
    return lines


def indented(lines):
    """Lines with two blanks before them for each open brace, but at most 32, and a line feed behind."""
    open_braces = 0
    for line in lines:
        around = open_braces - line.startswith("}")
        yield " " * min(2 * around, 32) + line + "\n"
        open_braces += line.count("{") - line.count("}")


def tokens_of(text):
    tokens = []
    at = len(INCLUDE)
    while at < len(text):
        found = TOKEN.match(text, at)
        if found is None:
            raise NotInSubset(f"no token begins at {at}")
        if found["token"]:
            tokens.append(found["token"])
        at = found.end()
    return tokens


class Reader:
    """Reads the tokens of a text by the productions of the grammar."""

    def __init__(self, tokens):
        self.tokens = tokens
        self.at = 0
        self.parameters = []
        self.variables = 0

    def next(self, ahead=0):
        return self.tokens[self.at + ahead] if self.at + ahead < len(self.tokens) else None

    def take(self):
        self.at += 1
        return self.tokens[self.at - 1] if self.at <= len(self.tokens) else None

    def expect(self, *tokens):
        for token in tokens:
            got = self.take()
            if got != token:
                raise NotInSubset(f"token {self.at - 1} is {got!r}, not {token!r}")

    def takes(self, token):
        if self.next() != token:
            return False
        self.at += 1
        return True

    def program(self):
        self.expect("int", "pipeline", "(")
        if not self.takes("void"):
            self.parameter()
            while self.takes(","):
                self.parameter()
        self.expect(")", "{")
        while self.takes("uint64_t"):
            self.expect(f"v{self.variables}", "=", "0ULL", ";")
            self.variables += 1
        body = self.block(is_whole_function=True)
        self.expect("return", "0", ";", "}")
        if self.next() is not None:
            raise NotInSubset("something stands behind the function")
        return Program(tuple(self.parameters), self.variables, body)

    def parameter(self):
        k = len(self.parameters)
        if self.takes("const"):
            self.expect("uint64_t", "*", f"a{k}", ",", "uint64_t", f"n{k}")
            self.parameters.append("array")
        else:
            self.expect("uint64_t", f"i{k}")
            self.parameters.append("int")

    def is_at_end(self):
        """Whether the last statement of the whole function comes."""
        return [self.next(k) for k in range(4)] == ["return", "0", ";", "}"]

    def block(self, is_whole_function=False):
        """Statements up to the brace that closes them, or up to the function's last statement."""
        statements = []
        while self.next() != "}" and not (is_whole_function and self.is_at_end()):
            statements.append(self.statement())
        return tuple(statements)

    def braced_block(self):
        self.expect("{")
        block = self.block()
        self.expect("}")
        return block

    def statement(self):
        if self.takes("if"):
            test = self.test()
            first = self.braced_block()
            self.expect("else")
            return If(test, first, self.braced_block())
        if self.takes("while"):
            self.expect("(", "1", ")", "{", "if")
            guard = self.test()
            self.expect("{", "}", "else", "{", "break", ";", "}")
            body = self.block()
            self.expect("}")
            return Loop(guard, body)
        statement = self.simple_statement()
        self.expect(";")
        return statement

    def simple_statement(self):
        if self.takes("EMIT"):
            self.expect("(")
            word = self.word()
            self.expect(")")
            return Emit(word)
        if self.takes("ENDROW"):
            self.expect("(", ")")
            return EndRow()
        if self.takes("return"):
            number = self.take()
            if number not in ("0", "1"):
                raise NotInSubset(f"{number!r} is returned")
            return Return(number)
        variable = self.declared("v")
        self.expect("=")
        if (self.next() or "").startswith("a"):
            array = self.declared("a")
            self.expect("[")
            index = self.word()
            self.expect("]")
            return Read(variable, array, index)
        return Set(variable, self.word())

    def declared(self, letters):
        """Takes a name that begins with one of these letters, and that is declared."""
        name = self.take()
        found = NAME.fullmatch(name or "")
        if found is None or found[1] not in letters:
            raise NotInSubset(f"token {self.at - 1} is {name!r}, not a name with one of {letters}")
        k = int(found[2])
        if found[1] == "v":
            is_declared = k < self.variables
        else:
            kind = "int" if found[1] == "i" else "array"
            is_declared = k < len(self.parameters) and self.parameters[k] == kind
        if not is_declared:
            raise NotInSubset(f"{name} isn't declared")
        return name

    def word(self):
        if self.takes("("):
            left = self.word()
            operator = self.take()
            if operator not in ("+", "-", "*", "/", "%", "^"):
                raise NotInSubset(f"token {self.at - 1} is {operator!r}, not an operator of words")
            right = self.word()
            self.expect(")")
            return f"({left} {operator} {right})"
        constant = CONSTANT.fullmatch(self.next() or "")
        if constant is not None and int(constant[1]) < 2**64:
            return self.take()
        return self.declared("vni")

    def test(self):
        """A test; behind its parenthesis it begins with a test where `!` or a test stands there."""
        self.expect("(")
        if self.takes("!"):
            test = f"(!{self.test()})"
        elif self.begins_test():
            left = self.test()
            operator = self.take()
            if operator not in ("&&", "||"):
                raise NotInSubset(f"token {self.at - 1} is {operator!r}, not && or ||")
            test = f"({left} {operator} {self.test()})"
        else:
            left = self.word()
            operator = self.take()
            if operator not in ("<", "=="):
                raise NotInSubset(f"token {self.at - 1} is {operator!r}, not < or ==")
            test = f"({left} {operator} {self.word()})"
        self.expect(")")
        return test

    def begins_test(self):
        """Whether the part in parentheses that comes is a test: its first operator outside of inner
        parentheses is one of tests."""
        if self.next() != "(":
            return False
        depth = 0
        for token in self.tokens[self.at :]:
            depth += (token == "(") - (token == ")")
            if depth == 0:
                return False
            if depth == 1 and token in ("<", "==", "&&", "||", "!"):
                return True
        return False


def is_within_nesting(tokens):
    """Whether parentheses and braces are nested no deeper than a text may have them."""
    depth = 0
    for token in tokens:
        depth += (token in "({") - (token in ")}")
        if depth > MOST_NESTED:
            return False
    return True


def program_of(text):
    """The program that a C text is."""
    if not text.startswith(INCLUDE):
        raise NotInSubset("the text doesn't begin with the include line")
    tokens = tokens_of(text)
    if not is_within_nesting(tokens):
        raise NotInSubset(f"brackets are nested deeper than {MOST_NESTED}")
    return Reader(tokens).program()
