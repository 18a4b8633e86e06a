#!/usr/bin/env python3
"""What a pipeline means, worked out on lists of rows.

    trials/lists.py FILE [--pulls N] [--rows N] NAME=VALUE ..

prints the rows of the pipeline in FILE. A value is a number for an int; for an array it is the name of
a file that has the items, or the items themselves in brackets, as 'a=[3 -2]'. It ends with 0 where the
pipeline came to its end, with 1 where it trapped, and with 5 where it was cut off. `--pulls` cuts each
source off behind so many rows, each time that it is opened; `--rows` stops behind so many printed rows.

Written from the rules of docs/LANGUAGE.md, with none of the program's code: a stream is a generator of
rows, so an endless one is gone through only as far as it is asked for.
"""

import argparse
import sys

from pipeline_text import (
    Array,
    Binary,
    Choice,
    Drop,
    Filter,
    FlatMap,
    Length,
    Map,
    Name,
    Number,
    Parenthesis,
    Print,
    Range,
    Scan,
    Take,
    TakeWhile,
    Truth,
    Unary,
    Unfold,
    Zip,
    program_of,
)


class Trap(Exception):
    """A quotient or remainder by zero."""


class Cut(Exception):
    """There are more rows than were asked for."""


class Bounds:
    """How far sources are gone through: `pulls` rows each time that one is opened, and `work` rows of
    all sources together. None is no bound."""

    def __init__(self, pulls=None, work=None):
        self.pulls = pulls
        self.work = work
        self.pulled = 0

    def pull(self, before):
        """Allows a source one more row behind so many, or cuts it off."""
        if before == self.pulls or self.pulled == self.work:
            raise Cut
        self.pulled += 1


def wrapped(number):
    """The word, as a signed number, that differs from `number` by a multiple of 2^64."""
    return (number + 2**63) % 2**64 - 2**63


def quotient(x, y):
    """The quotient of x and y without its fraction, as an integer of any size."""
    if y == 0:
        raise Trap
    magnitude = abs(x) // abs(y)
    return magnitude if (x < 0) == (y < 0) else -magnitude


def remainder(x, y):
    return x - quotient(x, y) * y


ARITHMETIC = {
    "+": lambda x, y: x + y,
    "-": lambda x, y: x - y,
    "*": lambda x, y: x * y,
    "/": quotient,
    "%": remainder,
}

COMPARISON = {
    "==": lambda x, y: x == y,
    "!=": lambda x, y: x != y,
    "<": lambda x, y: x < y,
    "<=": lambda x, y: x <= y,
    ">": lambda x, y: x > y,
    ">=": lambda x, y: x >= y,
}


def value(expression, scope):
    """The value of an expression, a signed number or a bool. The scope maps each name to its value,
    that of an array input to its items."""
    match expression:
        case Name(name):
            return scope[name]
        case Number(word):
            return word
        case Binary("&&", left, right):
            return value(left, scope) and value(right, scope)
        case Binary("||", left, right):
            return value(left, scope) or value(right, scope)
        case Binary(operator, left, right):
            x = value(left, scope)
            y = value(right, scope)
            if operator in COMPARISON:
                return COMPARISON[operator](x, y)
            return wrapped(ARITHMETIC[operator](x, y))
        case Parenthesis(inner):
            return value(inner, scope)
        case Choice(condition, first, second):
            return value(first if value(condition, scope) else second, scope)
        case Unary("-", operand):
            return wrapped(-value(operand, scope))
        case Unary("!", operand):
            return not value(operand, scope)
        case Truth(holds):
            return holds
        case Length(array):
            return len(scope[array])
    raise TypeError(expression)


def row_value(row, scope):
    """The values of a row's expressions, from left to right."""
    return tuple(value(part, scope) for part in row)


def bound(scope, pattern, row):
    """The scope with the names of a pattern on top, for the words of a row."""
    return {**scope, **dict(zip(pattern, row, strict=True))}


def rows_of_source(source, scope, bounds):
    match source:
        case Array(array):
            for before, item in enumerate(scope[array]):
                bounds.pull(before)
                yield (item,)
        case Range(low, high):
            first = value(low, scope)
            end = value(high, scope)
            for number in range(first, end):
                bounds.pull(number - first)
                yield (number,)
        case Unfold(seed, pattern, guard, item, next_state):
            state = row_value(seed, scope)
            before = 0
            while value(guard, inner := bound(scope, pattern, state)):
                bounds.pull(before)
                row = row_value(item, inner)
                state = row_value(next_state, inner)
                yield row
                before += 1
        case Zip(left, right):
            # the right arm is asked for a row once the left one gave one
            others = rows_of(right, scope, bounds)
            for row in rows_of(left, scope, bounds):
                other = next(others, None)
                if other is None:
                    return
                yield row + other


def rows_of_stage(stage, rows, scope, bounds):
    match stage:
        case Map(pattern, body):
            for row in rows:
                yield row_value(body, bound(scope, pattern, row))
        case Filter(pattern, test):
            for row in rows:
                if value(test, bound(scope, pattern, row)):
                    yield row
        case Take(count):
            # behind the last row that is taken no other is asked for
            left = value(count, scope)
            while left > 0:
                row = next(rows, None)
                if row is None:
                    return
                yield row
                left -= 1
        case Drop(count):
            left = value(count, scope)
            for row in rows:
                if left > 0:
                    left -= 1
                else:
                    yield row
        case TakeWhile(pattern, test):
            for row in rows:
                if not value(test, bound(scope, pattern, row)):
                    return
                yield row
        case Scan(seed, pattern, row_pattern, next_state):
            state = row_value(seed, scope)
            for row in rows:
                inner = bound(bound(scope, pattern, state), row_pattern, row)
                state = row_value(next_state, inner)
                yield state
        case FlatMap(pattern, inner):
            for row in rows:
                yield from rows_of(inner, bound(scope, pattern, row), bounds)


def rows_of(stream, scope, bounds):
    """The rows of a stream, one after the other. Behind the last it ends, or raises Trap or Cut."""
    rows = rows_of_source(stream.source, scope, bounds)
    for stage in stream.stages:
        rows = rows_of_stage(stage, rows, scope, bounds)
    return rows


def line_of(row):
    """The line that is printed for a row; a bool is 0 or 1."""
    return " ".join(str(int(word)) for word in row)


def observation(program, inputs, bounds, most_rows=None):
    """The lines that a program prints over its inputs, and how it ends: `done`, `trap` or `cut`.

    `inputs` has a number or a list of numbers by the name of each input. The observation is also cut
    off behind `most_rows` printed rows, where that is given.
    """
    lines = []
    scope = dict(inputs)
    try:
        rows = rows_of(program.stream, scope, bounds)
        if isinstance(program.terminal, Print):
            for row in rows:
                lines.append(line_of(row))
                if len(lines) == most_rows:
                    raise Cut
        else:
            fold = program.terminal
            state = row_value(fold.seed, scope)
            for row in rows:
                inner = bound(bound(scope, fold.state, state), fold.pattern, row)
                state = row_value(fold.next, inner)
            lines.append(line_of(state))
    except Trap:
        return lines, "trap"
    except Cut:
        return lines, "cut"
    return lines, "done"


def observation_of_text(text, inputs, bounds, most_rows=None):
    """The observation of the pipeline that a text is."""
    return observation(program_of(text), inputs, bounds, most_rows)


def input_of(program, binding):
    """The name and the value of a word NAME=VALUE."""
    name, _, word = binding.partition("=")
    if program.inputs[name] == "int":
        return name, int(word)
    if not word.startswith("["):
        with open(word, encoding="utf-8") as file:
            word = file.read()
    return name, [int(item) for item in word.strip("[]").split()]


def main():
    parser = argparse.ArgumentParser(description="Prints the rows that a pipeline has on lists.")
    parser.add_argument("file")
    parser.add_argument("bindings", nargs="*", metavar="NAME=VALUE")
    parser.add_argument("--pulls", type=int, help="rows of each source at most")
    parser.add_argument("--rows", type=int, help="printed rows at most")
    options = parser.parse_intermixed_args()
    with open(options.file, encoding="utf-8") as file:
        program = program_of(file.read())
    inputs = dict(input_of(program, binding) for binding in options.bindings)
    lines, ending = observation(program, inputs, Bounds(pulls=options.pulls), options.rows)
    for line in lines:
        print(line)
    sys.exit({"done": 0, "trap": 1, "cut": 5}[ending])


if __name__ == "__main__":
    main()
