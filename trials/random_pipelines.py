#!/usr/bin/env python3
"""Random pipelines of the language, each with inputs for it.

    trials/random_pipelines.py [--seed S] [--count N] [--operators LIST] [--no-flat-map] [--no-zip] [--nesting N]
        [--folder DIR]

prints the texts, or writes them to DIR as 0.strm, 1.strm and so on, with a line for each set of inputs in
0.inputs. Pipeline k of a seed is always the same. Every text has the right kinds and is within the limits
of the language. Texts and inputs lean to the edges: empty arrays, counts below 0 and beyond the length,
ranges that are empty, turned round or at the ends of the words, streams that never end, divisors that are
0, and names that hide others.
"""

import argparse
import json
import os
import random
from dataclasses import dataclass

LEAST = -(2**63)
GREATEST = 2**63 - 1

MOST_BYTES = 65_536
MOST_NODES = 8_192
MOST_DEPTH = 200
MOST_OPERATORS = 128
MOST_WORDS = 8

NAMES = "a b c i j k n s t x y z _ x1 total größe Δ".split()

# How tightly an expression binds; an operand that binds less tightly stands in parentheses.
CHOICE, OR, AND, COMPARISON, SUM, PRODUCT, UNARY, ATOM = range(8)

LEVELS = {"||": OR, "&&": AND, "+": SUM, "-": SUM, "*": PRODUCT, "/": PRODUCT, "%": PRODUCT}
LEVELS |= {operator: COMPARISON for operator in ("==", "!=", "<", "<=", ">", ">=")}


@dataclass(frozen=True)
class Expression:
    """The tokens of an expression, how tightly it binds, its depth and its nodes with parentheses."""

    tokens: list
    level: int
    depth: int = 1
    nodes: int = 1


SOURCES = ("array", "range", "unfold", "zip")
STAGES = ("map", "filter", "take", "drop", "takeWhile", "scan", "flatMap")
TERMINALS = ("print", "fold")
OPERATORS = SOURCES + STAGES + TERMINALS


class NoSource(Exception):
    """A stream in whose scope there is no source that may be used."""


@dataclass(frozen=True)
class Options:
    """`operators` are the keywords of the operators that may be used, and `nesting` is how deep streams
    may be nested in one another, where `flatMap` or `zip` is among them."""

    operators: tuple = tuple(OPERATORS)
    nesting: int = 3
    input_sets: int = 5


@dataclass(frozen=True)
class Pipeline:
    """`inputs` has the kind of each input; each of `input_sets` has a value for each of them."""

    text: str
    inputs: dict
    input_sets: list


def parenthesised(expression):
    return Expression(
        ["(", *expression.tokens, ")"], ATOM, expression.depth + 1, expression.nodes + 1
    )


def at_level(expression, level):
    """The expression as an operand that binds at least so tightly."""
    return expression if expression.level >= level else parenthesised(expression)


def joined(level, operands, tokens):
    """An expression with these operands, whose tokens are all of `tokens`."""
    return Expression(
        tokens,
        level,
        1 + max(operand.depth for operand in operands),
        1 + sum(operand.nodes for operand in operands),
    )


def binary(operator, left, right):
    level = LEVELS[operator]
    left = at_level(left, SUM if level == COMPARISON else level)
    right = at_level(right, level + 1)
    return joined(level, (left, right), [*left.tokens, operator, *right.tokens])


def unary(operator, operand):
    operand = at_level(operand, UNARY)
    return joined(UNARY, (operand,), [operator, *operand.tokens])


def choice(condition, first, second):
    tokens = ["if", *condition.tokens, "then", *first.tokens, "else", *second.tokens]
    return joined(CHOICE, (condition, first, second), tokens)


def literal(number):
    """An expression of this value."""
    if number == LEAST:
        return binary("-", literal(-GREATEST), literal(1))
    if number < 0:
        return unary("-", literal(-number))
    return Expression([str(number)], ATOM)


class Generator:
    """Makes the parts of one pipeline."""

    def __init__(self, rng, options):
        self.rng = rng
        self.options = options
        self.node_count = 0
        self.operator_count = 0
        self.greatest_depth_used = 0
        # the usual depth of expressions, that of the few deep ones, and how often one divides
        self.depth = rng.choice((1, 2, 3, 4))
        self.greatest_depth = rng.choice((5, 10, rng.randint(10, 90)))
        self.division = rng.choice((0.02, 0.2, 0.35, 0.5))

    def chance(self, probability):
        return self.rng.random() < probability

    # Expressions. A scope maps each name to its kind: int, bool or array.

    def names_of_kind(self, scope, kind):
        return [name for name, known in scope.items() if known == kind]

    def number(self):
        return self.rng.choice(
            (
                self.rng.randint(-3, 10),
                self.rng.randint(0, 3),
                self.rng.randint(-200, 200),
                self.rng.choice((GREATEST, GREATEST - 1, LEAST, LEAST + 1, -1, 0, 1, 2**31, 2**32, 2**62)),
                self.rng.randint(LEAST, GREATEST) if self.chance(0.3) else 2,
            )
        )

    def leaf(self, kind, scope):
        arrays = self.names_of_kind(scope, "array")
        if kind == "int" and arrays and self.chance(0.1):
            return Expression(["len", "(", self.rng.choice(arrays), ")"], ATOM)
        names = self.names_of_kind(scope, kind)
        if names and self.chance(0.8):
            # the newest names are used most
            return Expression([self.rng.choice(names[-4:] if self.chance(0.7) else names)], ATOM)
        if kind == "bool":
            return Expression([self.rng.choice(("true", "false"))], ATOM)
        return literal(self.number())

    def expression(self, kind, scope, divides=True, depth=None):
        """An expression of a kind. An opening expression is one that doesn't divide."""
        if depth is None:
            depth = self.greatest_depth if self.chance(0.03) else self.rng.randint(0, self.depth)
        made = self.inner_expression(kind, scope, divides, depth)
        return parenthesised(made) if self.chance(0.04) else made

    def inner_expression(self, kind, scope, divides, depth):
        if depth <= 0 or self.chance(0.1):
            return self.leaf(kind, scope)
        if self.chance(0.12):
            return choice(
                self.operand("bool", scope, divides, depth, True),
                self.operand(kind, scope, divides, depth, self.chance(0.5)),
                self.operand(kind, scope, divides, depth, True),
            )
        if self.chance(0.1):
            return unary("-" if kind == "int" else "!", self.operand(kind, scope, divides, depth, True))
        if kind == "int":
            if divides and self.chance(self.division):
                return self.quotient(scope, depth)
            return self.infix(self.rng.choice("+-*"), "int", scope, divides, depth)
        if self.chance(0.4):
            return self.infix(self.rng.choice(("&&", "||")), "bool", scope, divides, depth)
        operator = self.rng.choice(("==", "!=", "<", "<=", ">", ">="))
        is_of_bools = operator in ("==", "!=") and self.chance(0.2)
        return self.infix(operator, "bool" if is_of_bools else "int", scope, divides, depth)

    def operand(self, kind, scope, divides, depth, may_be_deep):
        """An operand of an expression of this depth. One of the operands of a deep expression is deep:
        so the number of nodes stays small."""
        if depth > 5:
            depth = depth if may_be_deep else self.rng.randint(1, 2)
        return self.expression(kind, scope, divides, depth - 1)

    def infix(self, operator, kind, scope, divides, depth):
        left_is_deep = self.chance(0.5)
        return binary(
            operator,
            self.operand(kind, scope, divides, depth, left_is_deep),
            self.operand(kind, scope, divides, depth, not left_is_deep),
        )

    def quotient(self, scope, depth):
        """A quotient or remainder: by a number, or by any expression, which is then sometimes guarded."""
        operator = self.rng.choice("/%")
        dividend = self.operand("int", scope, True, depth, True)
        if self.chance(0.3):
            number = self.rng.choice((-1, 2, 3, 5, 7, 10, -2, -3, 2**32, LEAST, GREATEST, 0))
            return binary(operator, dividend, literal(number))
        divisor = self.divisor(scope, depth)
        made = binary(operator, dividend, divisor)
        if self.chance(0.3):
            return choice(binary("==", divisor, literal(0)), self.leaf("int", scope), made)
        return made

    def divisor(self, scope, depth):
        """A divisor, often one that is 0 only at a later row."""
        names = self.names_of_kind(scope, "int")
        form = self.rng.choice(("leaf", "difference", "difference", "operand"))
        if names and form == "difference":
            name = Expression([self.rng.choice(names[-2:])], ATOM)
            return binary("-", name, literal(self.rng.randint(0, 5)))
        return self.operand("int", scope, True, depth if form == "operand" else 1, False)

    def opening(self, kind, scope):
        return self.expression(kind, scope, divides=False, depth=self.rng.choice((0, 0, 1, 2)))

    def used(self, expression):
        """The tokens of an expression that stands in the pipeline."""
        self.node_count += expression.nodes
        self.greatest_depth_used = max(self.greatest_depth_used, expression.depth)
        return expression.tokens

    def expression_tokens(self, kind, scope):
        return self.used(self.expression(kind, scope))

    # Rows and patterns

    def kinds(self):
        width = self.rng.choice((1, 1, 1, 2, 2, 3, self.rng.randint(4, MOST_WORDS)))
        return [self.rng.choice(("int", "int", "int", "bool")) for _ in range(width)]

    def braced(self, parts):
        """Parts in braces with commas between them; a single part has braces only sometimes."""
        if len(parts) == 1 and self.chance(0.85):
            return parts[0]
        tokens = []
        for part in parts:
            tokens += [",", *part]
        return ["{", *tokens[1:], "}"]

    def row(self, kinds, scope):
        return self.braced([self.part(kind, scope) for kind in kinds])

    def part(self, kind, scope):
        """A part of a row, where divisions are more frequent than elsewhere."""
        if kind == "int" and self.chance(self.division / 3):
            return self.used(self.quotient(scope, 1))
        return self.expression_tokens(kind, scope)

    def opening_row(self, kinds, scope):
        return self.braced([self.used(self.opening(kind, scope)) for kind in kinds])

    def pattern(self, names):
        return self.braced([[name] for name in names])

    def patterns(self, kinds, scope, state_kinds=()):
        """The tokens of a pattern for a state, where there is one, and of one for a row, and the scope
        with their names on top. There are few names, so some often hide others."""
        names = self.rng.sample(NAMES, len(state_kinds) + len(kinds))
        state, row = names[: len(state_kinds)], names[len(state_kinds) :]
        tokens = [*(self.pattern(state) if state else []), *(self.pattern(row) if row else [])]
        inner = {name: kind for name, kind in scope.items() if name not in names}
        inner |= dict(zip(names, [*state_kinds, *kinds], strict=True))
        return tokens, inner

    # Streams. Each gives its tokens and the kinds of its row.

    def stream(self, scope, most_words=MOST_WORDS, nesting=1):
        tokens, kinds = self.source(scope, most_words, nesting)
        for _ in range(self.number_of_stages(nesting)):
            if self.operator_count > MOST_OPERATORS - 20:
                break
            stage, kinds = self.stage(kinds, scope, nesting)
            tokens += stage
        if len(kinds) > most_words:
            self.operator_count += 1
            stage, kinds = self.mapped(kinds, scope, ["int"])
            tokens += ["|", *stage]
        return tokens, kinds

    def number_of_stages(self, nesting):
        if nesting > 1:
            return self.rng.randint(0, 2)
        return self.rng.choice((0, 1, 1, 2, 2, 3, 4, 5, self.rng.randint(6, 30) if self.chance(0.2) else 3))

    def chosen(self, keywords, weights):
        """One of the keywords that may be used, at random by these weights, or None."""
        allowed = [
            weight if keyword in self.options.operators else 0
            for keyword, weight in zip(keywords, weights, strict=True)
        ]
        return self.rng.choices(keywords, allowed)[0] if any(allowed) else None

    def source(self, scope, most_words, nesting):
        self.operator_count += 1
        arrays = self.names_of_kind(scope, "array")
        may_zip = nesting < self.options.nesting and most_words > 1
        match self.chosen(SOURCES, (4 if arrays else 0, 2, 2, 4 if may_zip else 0)):
            case "array":
                return ["array", self.rng.choice(arrays)], ["int"]
            case "range":
                return self.range(scope), ["int"]
            case "unfold":
                return self.unfold(scope)
            case "zip":
                return self.zipped(scope, most_words, nesting)
        raise NoSource

    def zipped(self, scope, most_words, nesting):
        width = self.rng.randint(1, most_words - 1)
        left, left_kinds = self.stream(scope, width, nesting + 1)
        right, right_kinds = self.stream(scope, most_words - len(left_kinds), nesting + 1)
        return ["zip", "(", *left, ",", *right, ")"], left_kinds + right_kinds

    def range(self, scope):
        low, high = self.rng.choice(
            (
                (0, self.rng.randint(0, 20)),
                (self.rng.randint(-9, 9), self.rng.randint(-9, 9)),
                (GREATEST - self.rng.randint(0, 3), GREATEST),
                (LEAST, LEAST + self.rng.randint(0, 3)),
                (LEAST, GREATEST),
                (GREATEST, LEAST),
                (0, None),
                (None, GREATEST),
                (None, None),
            )
        )
        bounds = [self.opening("int", scope) if bound is None else literal(bound) for bound in (low, high)]
        return ["range", "(", *self.used(bounds[0]), ",", *self.used(bounds[1]), ")"]

    def unfold(self, scope):
        """Half of the unfolds count up in their first word; others have any guard and next state."""
        counts = self.chance(0.6)
        state_kinds = self.kinds()
        if counts:
            state_kinds[0] = "int"
        kinds = self.kinds()
        seed = self.opening_row(state_kinds, scope)
        names, inner = self.patterns([], scope, state_kinds)
        guard = self.guard(inner, state_kinds, counts)
        item = self.row(kinds, inner)
        next_state = [self.part(kind, inner) for kind in state_kinds]
        if counts:
            next_state[0] = self.used(binary("+", self.first_of_state(inner, state_kinds), literal(1)))
        tokens = ["unfold", *seed, "with", *names, "while", *guard]
        return tokens + ["yield", *item, "next", *self.braced(next_state)], kinds

    def first_of_state(self, scope, state_kinds):
        """The first word of the state, whose words are the last of the scope."""
        return Expression([list(scope)[-len(state_kinds)]], ATOM)

    def guard(self, scope, state_kinds, counts):
        if self.chance(0.25):
            return self.used(Expression(["true"], ATOM))
        if counts:
            end = literal(self.rng.randint(-5, 30)) if self.chance(0.7) else self.opening("int", scope)
            return self.used(binary("<", self.first_of_state(scope, state_kinds), end))
        return self.used(self.opening("bool", scope))

    def stage(self, kinds, scope, nesting):
        """The tokens of a stage with the bar before it, none where no stage may be used."""
        may_nest = nesting < self.options.nesting
        keyword = self.chosen(STAGES, (4, 2, 1, 1, 2, 2, 4 if may_nest else 0))
        if keyword is None:
            return [], kinds
        self.operator_count += 1
        match keyword:
            case "map":
                stage, kinds = self.mapped(kinds, scope)
            case "filter" | "takeWhile":
                stage = self.filtered(keyword, kinds, scope)
            case "take" | "drop":
                stage = self.counted(keyword, scope)
            case "scan":
                stage, kinds = self.folded("scan", kinds, scope)
            case "flatMap":
                stage, kinds = self.flat_mapped(kinds, scope, nesting)
        return ["|", *stage], kinds

    def mapped(self, kinds, scope, new_kinds=None):
        new_kinds = new_kinds or self.kinds()
        pattern, inner = self.patterns(kinds, scope)
        return ["map", *pattern, "->", *self.row(new_kinds, inner)], new_kinds

    def filtered(self, keyword, kinds, scope):
        pattern, inner = self.patterns(kinds, scope)
        return [keyword, *pattern, "->", *self.test(inner)]

    def test(self, scope):
        """A condition; most of them hold for most rows."""
        if self.chance(0.4):
            return self.expression_tokens("bool", scope)
        names = self.names_of_kind(scope, "int")
        word = Expression([names[-1]], ATOM) if names else literal(1)
        if self.chance(0.5):
            divisor = literal(self.rng.choice((2, 3, 5, -4)))
            return self.used(binary("!=", binary("%", word, divisor), literal(self.rng.randint(-1, 1))))
        return self.used(binary(self.rng.choice(("<", "<=", "!=")), word, literal(self.rng.randint(5, 1000))))

    def counted(self, keyword, scope):
        if self.chance(0.6):
            return [keyword, *self.used(literal(self.rng.choice((0, 1, 2, 3, 5, 9, -1))))]
        return [keyword, *self.used(self.opening("int", scope))]

    def folded(self, keyword, kinds, scope):
        """A `scan` or a `fold`, and the kinds of its state."""
        state_kinds = self.kinds() if self.chance(0.5) else ["int"]
        seed = self.opening_row(state_kinds, scope)
        patterns, inner = self.patterns(kinds, scope, state_kinds)
        tokens = [keyword, *seed, "with", *patterns, "->", *self.row(state_kinds, inner)]
        return tokens, state_kinds

    def flat_mapped(self, kinds, scope, nesting):
        pattern, inner = self.patterns(kinds, scope)
        stream, new_kinds = self.stream(inner, MOST_WORDS, nesting + 1)
        return ["flatMap", *pattern, "->", "(", *stream, ")"], new_kinds

    def terminal(self, kinds, scope):
        self.operator_count += 1
        if self.chosen(TERMINALS, (2, 1)) == "fold":
            return self.folded("fold", kinds, scope)[0]
        return ["print"]

    def program(self):
        """The tokens of a program and the kinds of its inputs."""
        names = self.rng.sample(NAMES, self.rng.choice((0, 1, 1, 2, 2, 3, 4, 5)))
        if self.chance(0.02):
            names = self.rng.sample(NAMES, 16)
        inputs = {name: self.rng.choice(("array", "array", "int")) for name in names}
        tokens = []
        for name, kind in inputs.items():
            tokens += ["input", name, ":", kind, ";"]
        stream, kinds = self.stream(inputs)
        return tokens + stream + ["|", *self.terminal(kinds, inputs)], inputs

    # Inputs

    def word(self):
        return self.rng.choice(
            (
                self.rng.randint(-3, 5),
                self.rng.randint(-100, 100),
                self.rng.choice((LEAST, GREATEST, -1, 0, 1, LEAST + 1, 2**32, 2**62)),
                self.rng.randint(LEAST, GREATEST),
            )
        )

    def items(self):
        length = self.rng.choice((0, 1, 2, 3, 5, 8, 13, self.rng.randint(14, 60)))
        of_small = self.chance(0.5)
        return [self.rng.randint(-4, 9) if of_small else self.word() for _ in range(length)]

    def input_set(self, inputs):
        return {name: self.items() if kind == "array" else self.word() for name, kind in inputs.items()}


def is_word(token):
    return token[0].isalnum() or token[0] == "_"


def text_of(tokens, rng):
    """A text with these tokens: with a blank between all of them, with as few blanks as can be, or with
    blanks, line feeds and comments anywhere."""
    style = rng.choice(("plain", "plain", "tight", "loose"))
    pieces = []
    for before, token in zip([None, *tokens], tokens, strict=False):
        if before is None:
            pass
        elif style == "plain":
            pieces.append("\n" if before == ";" else " ")
        elif style == "loose":
            pieces.append(rng.choice((" ", " ", " ", "  ", "\n", "\t", " \r\n", " # a | b\n", "#\n")))
        elif is_word(before) and is_word(token):
            pieces.append(" ")
        elif not (is_word(before) or is_word(token) or {before, token} & set("(){},;:")):
            # two symbols might be taken for one
            pieces.append(" ")
        pieces.append(token)
    return "".join(pieces) + rng.choice(("\n", "", " # the end"))


def pipeline(seed, number, options):
    """Pipeline `number` of a seed."""
    rng = random.Random(f"{seed} {number}")
    while True:
        generator = Generator(rng, options)
        try:
            tokens, inputs = generator.program()
        except NoSource:
            continue
        text = text_of(tokens, rng)
        if (
            generator.node_count <= MOST_NODES
            and generator.greatest_depth_used <= MOST_DEPTH
            and generator.operator_count <= MOST_OPERATORS
            and len(text.encode()) <= MOST_BYTES
        ):
            sets = options.input_sets if inputs else 1
            return Pipeline(text, inputs, [generator.input_set(inputs) for _ in range(sets)])


def add_options(parser):
    """Adds to a parser the options that say which pipelines are made."""
    parser.add_argument("--seed", type=int, default=1)
    parser.add_argument("--operators", help="the operators that may be used, as array,map,print")
    parser.add_argument("--no-flat-map", action="store_true", help="pipelines have no flatMap")
    parser.add_argument("--no-zip", action="store_true", help="pipelines have no zip")
    parser.add_argument("--nesting", type=int, default=3, help="how deep streams are nested at most")
    parser.add_argument("--input-sets", type=int, default=5, help="sets of inputs for each pipeline")


def options_of(parser, parsed):
    operators = set(parsed.operators.split(",")) if parsed.operators else set(OPERATORS)
    operators -= {"flatMap"} if parsed.no_flat_map else set()
    operators -= {"zip"} if parsed.no_zip else set()
    if not operators <= set(OPERATORS) or not operators & {"array", "range", "unfold"}:
        parser.error("operators are " + ", ".join(OPERATORS) + ", with one source besides zip")
    return Options(tuple(sorted(operators)), min(parsed.nesting, 16), parsed.input_sets)


def main():
    parser = argparse.ArgumentParser(description="Makes random pipelines and inputs for them.")
    add_options(parser)
    parser.add_argument("--count", type=int, default=10)
    parser.add_argument("--folder", help="where the texts and inputs are written")
    parsed = parser.parse_args()
    options = options_of(parser, parsed)
    for number in range(parsed.count):
        made = pipeline(parsed.seed, number, options)
        if parsed.folder is None:
            print(f"# pipeline {number}\n{made.text}\n")
            continue
        os.makedirs(parsed.folder, exist_ok=True)
        path = os.path.join(parsed.folder, str(number))
        with open(f"{path}.strm", "w", encoding="utf-8", newline="") as file:
            file.write(made.text)
        with open(f"{path}.inputs", "w", encoding="utf-8") as file:
            file.writelines(json.dumps(inputs, ensure_ascii=False) + "\n" for inputs in made.input_sets)


if __name__ == "__main__":
    main()
