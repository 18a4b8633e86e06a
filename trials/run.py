#!/usr/bin/env python3
"""Compiles random pipelines with strymonas and C compilers, runs them, and compares them with lists.

    trials/run.py [--count N] [--seed S] [--only K] [--jobs J] [--no-flat-map] [--no-zip] [--nesting D] ..

For each pipeline `strymonas check` must write the counts that are worked out here, and `strymonas compile` a
C text that has only the forms of the subset, in its layout, and no more variables than its bound. The
texts are compiled by gcc and by clang, whichever is there, with sanitizers, and run over several sets of
inputs. The printed rows and the ending must be those of the interpreter on lists. What was done is printed
in figures. The exit status is 0 only where nothing differs; else the files of what differs are kept, and a
line says where.

The program is `strymonas` at the top of the repository, or the one that the environment variable STRYMONAS
names.
"""

import argparse
import os
import re
import shutil
import subprocess
import sys
import tempfile
from collections import Counter
from concurrent.futures import ProcessPoolExecutor
from dataclasses import dataclass, field

import c_subset
import counts
import lists
import random_pipelines
from pipeline_text import program_of

HERE = os.path.dirname(os.path.abspath(__file__))
TOP = os.path.dirname(HERE)

COMPILERS = {"gcc": [], "clang": ["-fbracket-depth=2048"]}

C_OPTIONS = ["-std=c11", "-Wall", "-Wextra", "-O1"]

# The sanitizers, most first: those count that the compiler has.
SANITIZERS = (
    ["-fsanitize=address,undefined", "-fno-sanitize-recover=all"],
    ["-fsanitize=undefined", "-fno-sanitize-recover=all"],
    [],
)

# A pipeline needn't use each of its inputs and each word of its rows, it may compare what is always so, as
# `x == x`, and where it divides by the number 0 no variable is set. Any other warning is a difference.
EXPECTED_WARNINGS = {
    "-Wunused-parameter",
    "-Wunused-but-set-variable",
    "-Wunused-variable",
    "-Wtautological-compare",
    "-Wtype-limits",
}

# The interpreter goes through so many rows of sources at most, and prints so many.
MOST_WORK = 2000
MOST_ROWS = 50

# How long a run may take, in milliseconds, and one that is known to print nothing for long.
MOST_TIME = 2_000
SHORT_TIME = 20

# What a program of driver.sh ends with where an expression trapped.
TRAP = 4

# Behind so many differences no further batch is begun.
MOST_DIFFERENCES = 20

DIAGNOSTIC = re.compile(r"(?:.*/)?([0-9]+)\.c:\d+:\d+: (warning|error|fatal error): (.*)")


@dataclass(frozen=True)
class Settings:
    """`compilers` has the options of each compiler that is there."""

    program: str
    compilers: dict
    seed: int
    options: random_pipelines.Options
    batch: int
    folder: str
    only_check: bool
    with_loops: bool


@dataclass
class Figures:
    """What was done: `counts` has a number for each line that is printed, `differences` a line for each."""

    counts: Counter = field(default_factory=Counter)
    differences: list = field(default_factory=list)

    def add(self, other):
        self.counts += other.counts
        self.differences += other.differences


@dataclass
class Run:
    """A pipeline over a set of inputs: what the interpreter printed, and how it ended."""

    number: int
    input_set: int
    inputs: dict
    lines: list
    ending: str

    def line(self, place):
        """The lines that tell the C program of this run, the pipeline being the one at `place`."""
        words = [f"{place} {self.rows_allowed()} {self.time_allowed()} {len(self.inputs)}"]
        for value in self.inputs.values():
            if isinstance(value, list):
                words.append(" ".join(["array", str(len(value)), *(str(item % 2**64) for item in value)]))
            else:
                words.append(f"int {value % 2**64}")
        return "\n".join(words) + "\n"

    def prints_nothing_for_long(self):
        return self.ending == "cut" and not self.lines

    def rows_allowed(self):
        """One row more than is wanted where the run ends by itself, else those that are wanted."""
        return max(1, len(self.lines) + (0 if self.ending == "cut" else 1))

    def time_allowed(self):
        return SHORT_TIME if self.prints_nothing_for_long() else MOST_TIME

    def fault(self, lines, ending):
        """What is wrong with these lines and this ending of the C program, or None."""
        if self.prints_nothing_for_long() and not ending.startswith("broken"):
            return None
        wanted = "rows" if self.ending == "cut" else self.ending
        if (lines, ending) == (self.lines, wanted):
            return None
        for place, (got, line) in enumerate(zip(lines, self.lines)):
            if got != line:
                return f"row {place} is '{got}', not '{line}'"
        return f"{len(lines)} rows and '{ending}', not {len(self.lines)} rows and '{wanted}'"


class Batch:
    """Some pipelines, whose C texts are compiled together."""

    def __init__(self, settings, numbers):
        self.settings = settings
        self.numbers = numbers
        self.folder = tempfile.mkdtemp(prefix="batch-", dir=settings.folder)
        self.figures = Figures()
        self.programs = {}
        self.runs = []

    def path(self, name):
        return os.path.join(self.folder, name)

    def write(self, name, text):
        with open(self.path(name), "w", encoding="utf-8", newline="") as file:
            file.write(text)

    def count(self, *lines):
        self.figures.counts.update(lines)

    def differs(self, number, what):
        again = f"--seed {self.settings.seed} --only {number}"
        self.figures.differences.append(f"pipeline {number}: {what} ({self.folder}, {again})")

    def strymonas(self, command, number):
        return subprocess.run(
            [self.settings.program, command, self.path(f"{number}.strm")],
            capture_output=True,
            text=True,
            encoding="utf-8",
            check=False,
        )

    def all(self):
        """Tries all pipelines of the batch, and gives the figures. The folder stays where something
        differs."""
        built = [number for number in self.numbers if self.is_built(number)]
        if built:
            for compiler in self.settings.compilers:
                self.run_compiled(compiler, built)
            self.run_with_example_driver(built[0])
        if not self.figures.differences:
            shutil.rmtree(self.folder)
        return self.figures

    def is_built(self, number):
        """Makes a pipeline, interprets it, and compiles it to C. Says whether there is a C text to run."""
        made = random_pipelines.pipeline(self.settings.seed, number, self.settings.options)
        self.write(f"{number}.strm", made.text)
        program = program_of(made.text)
        self.programs[number] = program
        self.count("pipelines", *operators_used(program))
        if not self.is_checked(number, program):
            return False
        runs = [interpreted(program, number, place, inputs) for place, inputs in enumerate(made.input_sets)]
        if self.settings.only_check:
            self.count(*(f"runs on lists that ended as {run.ending}" for run in runs))
            return False
        compiled = self.strymonas("compile", number)
        if compiled.returncode != 0:
            self.differs(number, f"compile: {compiled.returncode} {compiled.stderr.strip()}")
            return False
        self.write(f"{number}.c", compiled.stdout)
        self.check_text(number, compiled.stdout)
        self.count("pipelines compiled")
        self.runs += runs
        return True

    def is_checked(self, number, program):
        checked = self.strymonas("check", number)
        if checked.returncode != 0:
            self.differs(number, f"check: {checked.returncode} {checked.stderr.strip()}")
            return False
        if checked.stdout.splitlines() != counts.check_lines(program):
            self.differs(number, f"check writes {checked.stdout!r}, not {counts.check_lines(program)}")
        return True

    def check_text(self, number, text):
        """Looks at a C text: its forms, its layout and its counts."""
        try:
            found = c_subset.program_of(text)
        except c_subset.NotInSubset as fault:
            self.differs(number, f"no text of the subset: {fault}")
            return
        if found.layout() != text:
            self.differs(number, "not in the layout of the subset")
        bounds = counts.counts_of(self.programs[number])
        if found.variables > bounds.variables:
            self.differs(number, f"{found.variables} variables, more than {bounds.variables}")
        if self.settings.with_loops:
            if (found.loops(), found.nesting()) != (bounds.loops, bounds.nesting):
                self.differs(number, f"loops and nesting {found.loops()}, {found.nesting()}, not {bounds}")
            if found.statements() > bounds.statements:
                self.differs(number, f"{found.statements()} statements, more than {bounds.statements}")

    def run_compiled(self, compiler, built):
        """Compiles C texts, runs them over all inputs, and compares what they print."""
        taken = self.executable(compiler, built)
        if not taken:
            return
        places = {number: place for place, number in enumerate(taken)}
        runs = [run for run in self.runs if run.number in places]
        done = subprocess.run(
            [self.path(compiler)],
            input="".join(run.line(places[run.number]) for run in runs),
            capture_output=True,
            text=True,
            env={
                **os.environ,
                "ASAN_OPTIONS": "detect_leaks=0:exitcode=98",
                "UBSAN_OPTIONS": "exitcode=98",
            },
            check=False,
        )
        self.write(f"{compiler}.stdout", done.stdout)
        self.write(f"{compiler}.stderr", done.stderr)
        results = results_of(done.stdout)
        if len(results) != len(runs):
            self.differs(runs[0].number, f"{compiler}: {len(results)} runs, not {len(runs)}")
        for run, (lines, ending) in zip(runs, results):
            self.count(f"runs by {compiler}", f"runs by {compiler} that ended as {run.ending}")
            fault = run.fault(lines, ending)
            if fault is not None:
                self.differs(run.number, f"{compiler}, inputs {run.input_set}: {fault}")
                self.write(f"{run.number}-{run.input_set}.inputs", repr(run.inputs) + "\n")
                self.write(f"{run.number}-{run.input_set}.rows", "\n".join([*run.lines, run.ending, ""]))

    def executable(self, compiler, numbers):
        """Compiles C texts to one executable, and gives the numbers of those that the compiler took."""
        built = self.compile(compiler, numbers)
        refused = self.diagnostics(compiler, built.stderr)
        if built.returncode == 0:
            return numbers
        if not refused:
            self.differs(numbers[0], f"{compiler}: {built.stderr.strip()[:300]}")
        taken = [number for number in numbers if number not in refused]
        if not refused or not taken or self.compile(compiler, taken).returncode != 0:
            return []
        return taken

    def compile(self, compiler, numbers):
        self.write("runs.c", self.runs_text(numbers))
        return subprocess.run(
            [
                compiler,
                *self.settings.compilers[compiler],
                f"-I{HERE}/c",
                self.path("runs.c"),
                "-o",
                self.path(compiler),
            ],
            capture_output=True,
            text=True,
            env={**os.environ, "LC_ALL": "C"},
            check=False,
        )

    def runs_text(self, numbers):
        """A C program that includes these texts and runs them."""
        lines = ["#define _XOPEN_SOURCE 700", '#include "runs.h"']
        for number in numbers:
            arguments = []
            for place, kind in enumerate(self.programs[number].inputs.values()):
                fields = ("items", "count") if kind == "array" else ("word",)
                arguments += [f"inputs[{place}].{name}" for name in fields]
            lines += [
                f"#define pipeline pipeline_{number}",
                f'#include "{number}.c"',
                "#undef pipeline",
                f"static int run_{number}(const struct input *inputs) {{",
                "  (void)inputs;",
                f"  return pipeline_{number}({', '.join(arguments)});",
                "}",
            ]
        names = ", ".join(f"run_{number}" for number in numbers)
        lines += [
            f"static pipeline_run *const pipelines[] = {{{names}}};",
            f"int main(void) {{ return run_all(pipelines, {len(numbers)}); }}",
        ]
        return "\n".join(lines) + "\n"

    def diagnostics(self, compiler, said):
        """Counts the warnings of a compiler; gives the numbers of the texts that it didn't take."""
        refused = set()
        for number, kind, message in DIAGNOSTIC.findall(said):
            name = re.search(r"\[(-W[^\],]+)[^\]]*\]$", message)
            name = name[1] if name else message
            if kind != "warning":
                refused.add(int(number))
                self.differs(int(number), f"{compiler}: {message}")
                continue
            self.count(f"warnings by {compiler}, {name}")
            if name not in EXPECTED_WARNINGS:
                self.differs(int(number), f"{compiler} warns: {message}")
        return refused

    def run_with_example_driver(self, number):
        """Compiles a C text with the driver of examples/c, and runs it over the inputs over which it
        ends."""
        examples = os.path.join(TOP, "examples", "c")
        compiler = next(iter(self.settings.compilers))
        driver = subprocess.run(
            [os.path.join(examples, "driver.sh"), f"{number}.c"],
            cwd=self.folder,
            capture_output=True,
            text=True,
            check=False,
        )
        self.write("driver.c", driver.stdout)
        command = [compiler, *COMPILERS[compiler], "-std=c11", f"-I{examples}", "driver.c", "-o", "driver"]
        built = subprocess.run(command, cwd=self.folder, capture_output=True, text=True, check=False)
        if driver.returncode != 0 or built.returncode != 0:
            self.differs(number, f"the example driver: {driver.stderr or built.stderr}")
            return
        for run in self.runs:
            if run.number == number and run.ending != "cut":
                self.run_example(run)

    def run_example(self, run):
        words = []
        for place, value in enumerate(run.inputs.values()):
            if isinstance(value, list):
                self.write(f"array-{place}", "".join(f"{item}\n" for item in value))
                words.append(self.path(f"array-{place}"))
            else:
                words.append(str(value))
        done = subprocess.run([self.path("driver"), *words], capture_output=True, text=True, check=False)
        self.count("runs with the example driver")
        if (done.stdout.splitlines(), done.returncode) != (run.lines, 0 if run.ending == "done" else TRAP):
            self.differs(run.number, f"the example driver, inputs {run.input_set}: {done.stdout[:200]!r}")


def interpreted(program, number, place, inputs):
    bounds = lists.Bounds(work=MOST_WORK)
    lines, ending = lists.observation(program, inputs, bounds, MOST_ROWS)
    return Run(number, place, inputs, lines, ending)


def operators_used(program):
    """A line of the figures for each kind of operator that a pipeline has."""
    kinds = {type(operator).__name__ for operator in counts.all_operators_of(program)}
    return [f"pipelines with {kind[0].lower()}{kind[1:]}" for kind in kinds]


def results_of(text):
    """The lines and the ending of each run that the C program wrote of."""
    results = []
    lines = []
    for line in text.splitlines():
        if line in ("done", "trap", "rows", "time") or line.startswith("broken"):
            results.append((lines, line))
            lines = []
        else:
            lines.append(line)
    return results


def run_batch(settings, numbers):
    return Batch(settings, numbers).all()


def run_all(settings, numbers, jobs):
    """Tries all pipelines, in batches, until there are too many differences."""
    figures = Figures()
    batches = [numbers[at : at + settings.batch] for at in range(0, len(numbers), settings.batch)]
    with ProcessPoolExecutor(max_workers=jobs) as pool:
        for one in pool.map(run_batch, [settings] * len(batches), batches):
            figures.add(one)
            for line in one.differences:
                print(line, flush=True)
            if len(figures.differences) > MOST_DIFFERENCES:
                pool.shutdown(cancel_futures=True)
                break
    return figures


def options_of(compiler):
    """The options with which a compiler is called, with the sanitizers that it has."""
    for sanitizers in SANITIZERS:
        options = [*COMPILERS[compiler], *C_OPTIONS, *sanitizers]
        with tempfile.TemporaryDirectory() as folder:
            tried = subprocess.run(
                [compiler, *options, "-x", "c", "-", "-o", os.path.join(folder, "tried")],
                input="int main(void) { return 0; }\n",
                capture_output=True,
                text=True,
                check=False,
            )
        if tried.returncode == 0:
            break
    if sanitizers != SANITIZERS[0]:
        print(f"{compiler} hasn't all sanitizers: it is called with {' '.join(options)}")
    return options


def compilers_here():
    """The options of each compiler that is there."""
    here = {}
    for compiler in COMPILERS:
        if shutil.which(compiler):
            here[compiler] = options_of(compiler)
        else:
            print(f"there is no {compiler}: the C texts aren't compiled by it")
    return here


def is_there(program):
    """Whether there is such a program; the script at the top ends with 127 where it isn't built."""
    if shutil.which(program) is None:
        return False
    return subprocess.run([program], capture_output=True, check=False).returncode != 127


def parsed_words():
    parser = argparse.ArgumentParser(description="Runs random pipelines and compares them with lists.")
    random_pipelines.add_options(parser)
    parser.add_argument("--count", type=int, default=200)
    parser.add_argument("--only", type=int, help="the number of the one pipeline that is tried")
    parser.add_argument("--jobs", type=int, default=2, help="batches at a time")
    parser.add_argument("--batch", type=int, default=40, help="pipelines that are compiled together")
    parser.add_argument("--only-check", action="store_true", help="compile nothing")
    parser.add_argument("--loops", action="store_true", help="compare loops, nesting and statements too")
    words = parser.parse_args()
    return words, random_pipelines.options_of(parser, words)


def main():
    words, options = parsed_words()
    program = os.path.abspath(os.environ.get("STRYMONAS", os.path.join(TOP, "strymonas")))
    if not is_there(program):
        print(f"skipped: {program} isn't built")
        return 0
    compilers = {} if words.only_check else compilers_here()
    if not compilers and not words.only_check:
        print("skipped: there is no C compiler")
        return 0
    numbers = [words.only] if words.only is not None else list(range(words.count))
    folder = tempfile.mkdtemp(prefix="strymonas-trials-")
    settings = Settings(
        program=program,
        compilers=compilers,
        seed=words.seed,
        options=options,
        batch=words.batch,
        folder=folder,
        only_check=words.only_check,
        with_loops=words.loops,
    )
    figures = run_all(settings, numbers, words.jobs)
    for line, number in sorted(figures.counts.items()):
        print(f"{number:8} {line}")
    print(f"{len(figures.differences):8} differences")
    if figures.differences:
        print(f"the files of what differs are in {folder}")
        return 1
    shutil.rmtree(folder)
    return 0


if __name__ == "__main__":
    sys.exit(main())
