"""The kinds of a pipeline's rows and its counts, as `strymonas check` writes them, worked out here from the
rules of docs/LANGUAGE.md. The pipeline is one that the language has; nothing is checked.
"""

from dataclasses import dataclass

from pipeline_text import (
    Array,
    Binary,
    Choice,
    Drop,
    Filter,
    FlatMap,
    Fold,
    Length,
    Map,
    Name,
    Number,
    Parenthesis,
    Print,
    Range,
    Scan,
    Take,
    TakeWhile,
    Truth,
    Unary,
    Unfold,
    Zip,
)

BOOL_OPERATORS = ("&&", "||", "!", "==", "!=", "<", "<=", ">", ">=")


def parts_of(expression):
    """The expressions that stand directly in one."""
    match expression:
        case Unary(_, operand):
            return (operand,)
        case Binary(_, left, right):
            return (left, right)
        case Choice(condition, first, second):
            return (condition, first, second)
        case Parenthesis(inner):
            return (inner,)
    return ()


def nodes_in(expression):
    """The nodes of an expression, parentheses not among them."""
    own = 0 if isinstance(expression, Parenthesis) else 1
    return own + sum(map(nodes_in, parts_of(expression)))


def depth_of(expression):
    """The depth of an expression without its parentheses."""
    own = 0 if isinstance(expression, Parenthesis) else 1
    return own + max(map(depth_of, parts_of(expression)), default=0)


def kind_of(expression, scope):
    """`int` or `bool`; the scope maps each name to its kind."""
    match expression:
        case Name(name):
            return scope[name]
        case Truth(_):
            return "bool"
        case Number(_) | Length(_):
            return "int"
        case Parenthesis(inner):
            return kind_of(inner, scope)
        case Choice(_, first, _):
            return kind_of(first, scope)
        case Unary(operator, _) | Binary(operator, _, _):
            return "bool" if operator in BOOL_OPERATORS else "int"
    raise TypeError(expression)


def row_kinds(row, scope):
    return tuple(kind_of(part, scope) for part in row)


def bound(scope, pattern, kinds):
    return {**scope, **dict(zip(pattern, kinds, strict=True))}


def kinds_of(stream, scope):
    """The kinds of a stream's row."""
    match stream.source:
        case Array(_) | Range(_, _):
            kinds = ("int",)
        case Unfold(seed, state, _, item, _):
            kinds = row_kinds(item, bound(scope, state, row_kinds(seed, scope)))
        case Zip(left, right):
            kinds = kinds_of(left, scope) + kinds_of(right, scope)
    for stage in stream.stages:
        match stage:
            case Map(pattern, row):
                kinds = row_kinds(row, bound(scope, pattern, kinds))
            case Scan(seed, _, _, _):
                kinds = row_kinds(seed, scope)
            case FlatMap(pattern, inner):
                kinds = kinds_of(inner, bound(scope, pattern, kinds))
    return kinds


def expressions_of(operator):
    """The expressions that stand in a source, a stage or a terminal, not those of its streams."""
    match operator:
        case Range(low, high):
            return (low, high)
        case Unfold(seed, _, guard, item, next_state):
            return (*seed, guard, *item, *next_state)
        case Map(_, row):
            return row
        case Filter(_, test) | TakeWhile(_, test):
            return (test,)
        case Take(count) | Drop(count):
            return (count,)
        case Scan(seed, _, _, next_state) | Fold(seed, _, _, next_state):
            return (*seed, *next_state)
    return ()


def operators_of(stream):
    """The sources and stages of a stream, also those of the streams in it."""
    found = [stream.source]
    if isinstance(stream.source, Zip):
        found += operators_of(stream.source.left) + operators_of(stream.source.right)
    for stage in stream.stages:
        found.append(stage)
        if isinstance(stage, FlatMap):
            found += operators_of(stage.inner)
    return found


def all_operators_of(program):
    return operators_of(program.stream) + [program.terminal]


def is_exact(stream):
    """Whether each pull of a stream gives a row or its end."""
    if isinstance(stream.source, Zip):
        arms = is_exact(stream.source.left) and is_exact(stream.source.right)
    else:
        arms = True
    return arms and not any(isinstance(stage, (Filter, Drop, FlatMap)) for stage in stream.stages)


def loops_of(stream):
    """The loops of a stream, how deep they are nested, and the loops around its row."""
    loops, nesting, around = 1, 1, 1
    if isinstance(stream.source, Zip):
        loops, nesting, around = loops_of(stream.source.left)
        if not is_exact(stream.source.right):
            loops, nesting = loops + 1, max(nesting, around + 1)
    for stage in stream.stages:
        if isinstance(stage, FlatMap):
            inner_loops, inner_nesting, inner_around = loops_of(stage.inner)
            nesting = max(nesting, around + inner_nesting)
            loops, around = loops + inner_loops, around + inner_around
    return loops, nesting, around


@dataclass(frozen=True)
class Counts:
    """The counts of a program; `variables` and `statements` are bounds for those of its C text."""

    ops: int
    nodes: int
    depth: int
    loops: int
    nesting: int
    variables: int
    statements: int


def counts_of(program):
    operators = all_operators_of(program)
    expressions = [expression for operator in operators for expression in expressions_of(operator)]
    ops = len(operators)
    nodes = sum(map(nodes_in, expressions))
    depth = max(map(depth_of, expressions), default=0)
    loops, nesting, _ = loops_of(program.stream)
    variables = 32 * ops + 6 * depth + 8
    statements = 64 * ops + 24 * nodes + 16
    return Counts(ops, nodes, depth, loops, nesting, variables, statements)


def check_lines(program):
    """The eight lines that `strymonas check` writes of a program."""
    counts = counts_of(program)
    if isinstance(program.terminal, Print):
        kinds = kinds_of(program.stream, program.inputs)
    else:
        kinds = row_kinds(program.terminal.seed, program.inputs)
    return [
        "kinds " + " ".join(kinds),
        f"ops {counts.ops}",
        f"nodes {counts.nodes}",
        f"depth {counts.depth}",
        f"loops {counts.loops}",
        f"nesting {counts.nesting}",
        f"variables at most {counts.variables}",
        f"statements at most {counts.statements}",
    ]
