#!/usr/bin/env bash
# Writes a C program that runs the C text of a pipeline, whatever inputs the pipeline has:
#
#   examples/c/driver.sh squares.c >main.c
#   cc -std=c11 -Iexamples/c main.c -o squares
#   ./squares examples/squares.values
#
# The text stands in the program, which calls its function as the line `int pipeline(..)` there has it; so a C compiler
# compares the two, and the program needs no file but driver.h and a pipeline.h. It takes a word for each input, in the
# order in which they are declared: of an array the file that has its items, and of an int the number. It reads them as
# `strymonas exec` does, and ends with the status and the line that this ends with, behind `pipeline` in place of
# `strymonas`: README has a table of them.
set -eu
if [ $# != 1 ] || [ ! -f "$1" ]; then
  echo 'usage: driver.sh TEXT.c >main.c' >&2
  exit 2
fi
if ! grep -q '^int pipeline(.*) {$' "$1"; then
  echo "$1 has no line that begins with int pipeline(" >&2
  exit 1
fi
awk '
  # reads NAME by READER from the next word
  function declare(type, name, reader) {
    lines = lines sprintf("  %s %s = %s(words[%d], %d);\n", type, name, reader, inputs + 1, inputs)
    inputs++
  }
  function pass(argument) { call = call (call == "" ? "" : ", ") argument }
  BEGIN { print "#include \"driver.h\"" }
  { print }
  /^int pipeline\(.*\) \{$/ {
    count = split($0, parts, /[(),] ?/)
    for (k = 2; k < count; k++) {
      name = parts[k]
      sub(/^.*[ *]/, "", name)
      if (name ~ /^a/) { declare("struct items", name, "items_in"); pass(name ".items") }
      if (name ~ /^n/) { pass("a" substr(name, 2) ".count") }
      if (name ~ /^i/) { declare("uint64_t", name, "number_in"); pass(name) }
    }
  }
  END {
    printf "\nint main(int count, char **words) {\n%s  expect_inputs(count, %d);\n", inputs ? "" : "  (void)words;\n", inputs
    printf "%s  return end_of(pipeline(%s));\n}\n", lines, call
  }' <"$1"
