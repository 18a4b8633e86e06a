#!/usr/bin/env python3
"""Holds the interpreter, the counts and the recogniser of C texts against values worked out by hand.

    trials/self_test.py

It needs nothing but Python. It ends with 1 where a value differs.
"""

import sys

from c_subset import NotInSubset, program_of as c_program_of
from counts import check_lines
from lists import Bounds, observation
from pipeline_text import program_of

# Enough for every pipeline below that ends, and little for one that never does.
BOUNDS = {"pulls": 2000, "work": 20000}

LEAST = -9223372036854775808
GREATEST = 9223372036854775807

ENDLESS = "unfold 0 with i while true yield i next i + 1"

SQUARES_OF_EVEN = "array a | filter x -> x % 2 == 0 | map x -> x * x | fold 0 with s x -> s + x"

UNEVEN_ARMS = """zip(range(0, 3) | flatMap i -> (range(0, i)),
    range(1, 3) | flatMap j -> (range(0, 2) | map k -> j * 10 + k)) | print"""

ORDER = """
zip(array price, array qty)
| filter {p, q} -> p >= floor          # ignore the cheap ones
| fold {0, 0} with {n, t} {p, q} -> {n + 1, t + p * q}
"""

UNEVEN_ARMS_OF_ITEMS = """
zip(array a | map x -> x % 4 | flatMap k -> (range(0, k) | map i -> k * 10 + i),
    array a | map y -> {y, y % 3} | flatMap {y, k} -> (range(0, k) | map j -> y + j))
| fold {0, 0} with {s, c} {u, v} -> {s + u * v, c + 1}
"""

# The pipeline behind its inputs, the inputs in order of declaration, the printed rows, the ending.
OBSERVATIONS = [
    (SQUARES_OF_EVEN, {"a": [1, 2, 3, 4]}, ["20"], "done"),
    (SQUARES_OF_EVEN, {"a": []}, ["0"], "done"),
    (
        "zip(array a, array b) | map {x, y} -> x * y | fold 0 with s p -> s + p",
        {"a": [1, 2, 3], "b": [4, 5]},
        ["14"],
        "done",
    ),
    (UNEVEN_ARMS, {}, ["0 10", "0 11", "1 20"], "done"),
    # the left arm is asked first: it traps though the right arm is at its end
    (
        "zip(array a | map x -> 10 / x, range(0, 2)) | print",
        {"a": [5, 2, 0]},
        ["2 0", "5 1"],
        "trap",
    ),
    (
        "zip(range(0, 2), array a | map x -> 10 / x) | print",
        {"a": [5, 2, 0]},
        ["0 2", "1 5"],
        "done",
    ),
    ("array a | map x -> 10 / x | take 2 | print", {"a": [5, 2, 0]}, ["2", "5"], "done"),
    (f"{ENDLESS} | filter i -> i < 0 | print", {}, [], "cut"),
    ("array a | map x -> {x / -1, x % -1} | print", {"a": [LEAST]}, [f"{LEAST} 0"], "done"),
    (
        "array a | map x -> {x / 2, x % 2, x / -2, x % -2} | print",
        {"a": [-7, 7]},
        ["-3 -1 3 -1", "3 1 -3 1"],
        "done",
    ),
    ("array a | print", {"a": []}, [], "done"),
    (f"{ENDLESS} | take 0 | print", {}, [], "done"),
    (f"{ENDLESS} | take -1 | print", {}, [], "done"),
    ("range(0, 3) | drop 5 | print", {}, [], "done"),
    (
        "array a | flatMap x -> (array a | map y -> x * 10 + y | take 1) | map z -> z + 1 | print",
        {"a": [1, 2]},
        ["12", "22"],
        "done",
    ),
    (
        "range(0, 1000000) | flatMap i -> (range(0, 1000000)) | take 3 | print",
        {},
        ["0", "1", "2"],
        "done",
    ),
    ("array a | print", {"a": [7, 8, 9]}, ["7", "8", "9"], "done"),
    (
        "array a | map x -> if x == 0 then 0 else 10 / x | print",
        {"a": [0, 5]},
        ["0", "2"],
        "done",
    ),
    ("range(0, 1) | map x -> 9223372036854775807 + 1 + x | print", {}, [f"{LEAST}"], "done"),
    (
        "array a | scan 0 with s x -> s + x | takeWhile s -> s < 8 | drop 1 | print",
        {"a": [3, 1, 4, 1]},
        ["4"],
        "done",
    ),
    (
        "unfold {0, 1} with {p, q} while p < 30 yield p next {q, p + q} | print",
        {},
        ["0", "1", "1", "2", "3", "5", "8", "13", "21"],
        "done",
    ),
    ("range(0, 3) | map x -> {x > 0, x != 2} | print", {}, ["0 1", "1 1", "1 0"], "done"),
    ("array a | fold 1 with s x -> s / x", {"a": [2, 0]}, [], "trap"),
    (
        ORDER,
        {"price": [250, 1999, 120, 4500], "qty": [4, 1, 10, 2], "floor": 200},
        ["3 11999"],
        "done",
    ),
    (f"zip({ENDLESS}, range(0, 2)) | print", {}, ["0 0", "1 1"], "done"),
    # the left rows are 30, 31 and 32, the right ones 167951807 and 167951808
    (UNEVEN_ARMS_OF_ITEMS, {"a": [167951807]}, ["10245060258 2"], "done"),
    (UNEVEN_ARMS_OF_ITEMS, {"a": []}, ["0 0"], "done"),
    ("array größe | print", {"größe": [5]}, ["5"], "done"),
    (f"zip(range(0, 0), {ENDLESS} | filter i -> i < 0) | print", {}, [], "done"),
    (f"zip(range(0, 1), {ENDLESS} | filter i -> i < 0) | print", {}, [], "cut"),
    (f"zip({ENDLESS}, range(0, 3) | filter x -> x < 1) | print", {}, ["0 0"], "done"),
    (
        "range(0, 1) | map x -> {x, x, x, x, x, x, x, x} | print",
        {},
        ["0 0 0 0 0 0 0 0"],
        "done",
    ),
    ("range(0, " + 199 * "(" + "1" + 199 * ")" + ") | print", {}, ["0"], "done"),
    # a row of `unfold` is given once its next state is known to be no trap
    ("unfold 0 with i while true yield i next 10 / i | take 1 | print", {}, [], "trap"),
    # ranges at the ends of the words, and one that is turned round
    (
        "range(9223372036854775805, 9223372036854775807) | print",
        {},
        ["9223372036854775805", "9223372036854775806"],
        "done",
    ),
    ("range(0, low) | print", {"low": LEAST}, [], "done"),
    ("range(low, -9223372036854775806) | print", {"low": LEAST}, [f"{LEAST}", f"{LEAST + 1}"], "done"),
    # a row that traps in its second word isn't printed at all
    ("array a | map x -> {x, 1 / x} | print", {"a": [1, 0]}, ["1 1"], "trap"),
    # `&&`, `||` and `if` look only at the part that is chosen
    (
        "array a | map x -> {x != 0 && 6 / x > 1, x == 0 || 6 % x == 0} | print",
        {"a": [0, 3, 4, 7]},
        ["0 1", "1 1", "0 0", "0 0"],
        "done",
    ),
    # operators of one level group to the left, and those of another by their precedence
    (
        "range(0, 1) | map x -> {10 - 4 - 3, 60 / 6 / 2, 7 - 2 * 3, - 7 % 4} | print",
        {},
        ["3 5 1 -3"],
        "done",
    ),
    (
        "range(0, 1) | map x -> {-n, n - 1, n * 2, n * n} | print",
        {"n": LEAST},
        [f"{LEAST} {GREATEST} 0 0"],
        "done",
    ),
    # a newer name hides an older one, also that of an input
    ("range(0, 2) | map n -> n + 1 | map x -> x * n | print", {"n": 10}, ["10", "20"], "done"),
]

# The pipeline, the rows of each source that are asked for at most, the printed rows, the ending.
CUT_OBSERVATIONS = [
    (f"zip({ENDLESS}, range(0, 2)) | print", {}, 2, ["0 0", "1 1"], "cut"),
    (f"zip({ENDLESS}, range(0, 2)) | print", {}, 3, ["0 0", "1 1"], "done"),
    (UNEVEN_ARMS, {}, 2, ["0 10"], "cut"),
    (UNEVEN_ARMS, {}, 3, ["0 10", "0 11", "1 20"], "done"),
    (f"zip(range(0, 0), {ENDLESS} | filter i -> i < 0) | print", {}, 0, [], "done"),
    (f"zip(range(0, 1), {ENDLESS} | filter i -> i < 0) | print", {}, 5, [], "cut"),
    (f"zip({ENDLESS}, range(0, 3) | filter x -> x < 1) | print", {}, 2, ["0 0"], "cut"),
    (f"zip({ENDLESS}, range(0, 3) | filter x -> x < 1) | print", {}, 3, ["0 0"], "done"),
    ("array a | print", {"a": [7, 8, 9]}, 3, ["7", "8", "9"], "done"),
    ("array a | print", {"a": [7, 8, 9]}, 2, ["7", "8"], "cut"),
    ("array a | fold 0 with s x -> s + x", {"a": [7, 8, 9]}, 2, [], "cut"),
    # the guard is looked at before the bound, and the bound before the item
    ("unfold 3 with i while i > 0 yield 6 / i next i - 1 | print", {}, 3, ["2", "3", "6"], "done"),
    ("unfold 1 with i while true yield 6 / i next i - 1 | print", {}, 1, ["6"], "cut"),
]

COUNTS_OF_UNEVEN_ARMS = [
    "kinds int int",
    "ops 9",
    "nodes 13",
    "depth 3",
    "loops 3",
    "nesting 3",
    "variables at most 314",
    "statements at most 904",
]

C_TEXT = """#include "pipeline.h"
int pipeline(const uint64_t *a0, uint64_t n0, uint64_t i1) {
  uint64_t v0 = 0ULL;
  uint64_t v1 = 0ULL;
  v0 = 0ULL;
  while (1) {
    if (!(v0 == n0)) { } else { break; }
    v1 = a0[v0];
    if (((v1 ^ 9223372036854775808ULL) < 12ULL) && (!(i1 == v1))) {
      EMIT((v1 / 3ULL));
      ENDROW();
    } else {
      return 1;
    }
    v0 = (v0 + 1ULL);
  }
  return 0;
}
"""

# What is changed in that text, and into what, so that it is no text of the subset.
C_FAULTS = [
    ('#include "pipeline.h"', "#include <pipeline.h>"),
    ("v0 = (v0 + 1ULL);", "v0 = v0 + 1ULL;"),
    ("v0 = (v0 + 1ULL);", "v0 = (v0 + 01ULL);"),
    ("v0 = (v0 + 1ULL);", "v0 = (v0 + 1);"),
    ("v0 = (v0 + 1ULL);", "v0 = (v0 + 18446744073709551616ULL);"),
    ("v0 = (v0 + 1ULL);", "v2 = (v0 + 1ULL);"),
    ("v0 = (v0 + 1ULL);", "v0 = (v0 + n1);"),
    ("v0 = (v0 + 1ULL);", "f(v0);"),
    ("v1 = a0[v0];", "v1 = a1[v0];"),
    ("{ break; }", "{ return 0; }"),
    ("while (1) {", "while (0) {"),
    ("< 12ULL", "> 12ULL"),
    ("return 1;", "return 2;"),
    ("uint64_t v1 = 0ULL;", "uint64_t v2 = 0ULL;"),
    ("uint64_t i1", "uint64_t i2"),
    ("  return 0;\n}\n", "}\n"),
    ("    } else {\n      return 1;\n    }", "    }"),
]


def with_inputs(text, inputs):
    """A pipeline text with the declarations of these inputs before it."""
    kinds = {name: "array" if isinstance(value, list) else "int" for name, value in inputs.items()}
    return "".join(f"input {name}: {kind};\n" for name, kind in kinds.items()) + text


def differences():
    """A line for each value that differs."""
    for text, inputs, lines, ending in OBSERVATIONS:
        got = observation(program_of(with_inputs(text, inputs)), inputs, Bounds(**BOUNDS))
        if got != (lines, ending):
            yield f"{text} over {inputs}: {got}, not {(lines, ending)}"
    for text, inputs, pulls, lines, ending in CUT_OBSERVATIONS:
        got = observation(program_of(with_inputs(text, inputs)), inputs, Bounds(pulls=pulls))
        if got != (lines, ending):
            yield f"{text} over {inputs} at {pulls} pulls: {got}, not {(lines, ending)}"
    got = check_lines(program_of(UNEVEN_ARMS))
    if got != COUNTS_OF_UNEVEN_ARMS:
        yield f"the counts of {UNEVEN_ARMS}: {got}, not {COUNTS_OF_UNEVEN_ARMS}"
    yield from differences_of_c_texts()


def differences_of_c_texts():
    program = c_program_of(C_TEXT)
    if program.layout() != C_TEXT:
        yield f"the layout of the C text is\n{program.layout()}"
    counts = (program.variables, program.loops(), program.nesting(), program.statements())
    if counts != (2, 1, 1, 8):
        yield f"the C text has {counts} variables, loops, nesting and statements, not (2, 1, 1, 8)"
    for old, new in C_FAULTS:
        if old not in C_TEXT:
            yield f"{old!r} isn't in the C text"
        try:
            c_program_of(C_TEXT.replace(old, new))
        except NotInSubset:
            continue
        yield f"the C text with {new!r} for {old!r} is taken"


def main():
    found = list(differences())
    for line in found:
        print(line)
    tests = len(OBSERVATIONS) + len(CUT_OBSERVATIONS) + len(C_FAULTS) + 3
    print(f"{tests} values worked out by hand, {len(found)} differences")
    sys.exit(1 if found else 0)


if __name__ == "__main__":
    main()
