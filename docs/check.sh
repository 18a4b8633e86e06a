#!/usr/bin/env bash
# Checks pages: each file, each command and each output on them, with the program that the gate leaves.
#
#   docs/check.sh [PAGE ..]
#
# Without words the pages are TUTORIAL.md and ANSWERS.md of this folder. A page is Markdown; what is checked are its
# fenced blocks, each of which begins with three backticks at the front of a line. The files and commands of a page
# are gone through from top to bottom, in an empty folder of this page. A block is one of these:
#
# - A file. The paragraph before the block ends in "`NAME`:", as in "Put this into the file `squares.strm`:", and the
#   block's lines, each with a line feed, become the file NAME. The block's own kind, such as `c`, says nothing here.
#   A line of blanks and one `^` is none of the file: it points at the byte, or at the first byte of the character,
#   that stands over it. The next line that a command prints with ` at N` at its end has to mean this byte: N is its
#   offset in the file, from 0. A `^` at the front under an empty line at the end of the block means the end of the
#   file; that empty line is then none of the file either.
# - A part of a file. The paragraph before ends in "`NAME` has:", and the block's lines stand in the file NAME, as
#   they are here and one behind the other.
# - Of the kind `console`: commands and what they print. A line `$ COMMAND` is given to bash; where it ends in `\` the
#   next line goes on. The lines up to the next `$ ` are what it prints: first all of standard output and then all of
#   standard error, each ended by a line feed where it has none. Where the status isn't 0, a last line `[status 4]`
#   has it. All of it is compared exactly. Only files last from one command to the next: no variables, and no `cd`.
# - Of the kind `sh`: commands that the reader types and that aren't run here, such as `rt ci`.
#
# Any other block is a fault. The folder is called `try`; `strymonas` is on the PATH, and the folder `examples` of the
# repository is `../examples`, as for a reader who works in a folder `try` at the top of the repository. Standard input
# is empty, and LC_ALL is C. Where there is no `cc`, the commands that begin with `cc` or `./` are skipped.
#
# The first difference of each command is printed with the page's line, and the status is then 1.
set -u
here=$(cd "$(dirname "$0")" && pwd)
# shellcheck source=../examples/program.sh source-path=SCRIPTDIR
. "$here/../examples/program.sh"
export LC_ALL=C
bad=0
skipped=0

# fault LINE WORDS: says what is wrong in this line of the page
fault() {
  echo "$page:$1: $2"
  bad=1
}

# folder: makes the empty folder of a page, and what a command there finds beside it
folder() {
  rm -rf "$work/top"
  mkdir -p "$work/top/try" "$work/bin"
  ln -s "$top/examples" "$work/top/examples"
  ln -sf "$program" "$work/bin/strymonas"
}

# block KIND: reads the rest of a fenced block and checks it
block() {
  local closed=0
  lines=()
  first=$((number + 1))
  while IFS= read -r line; do
    number=$((number + 1))
    [ "$line" = '```' ] && closed=1 && break
    lines+=("$line")
  done
  if [ "$closed" = 0 ]; then
    fault "$number" 'the block has no end'
  elif [ "$1" = console ]; then
    commands
  elif [ "$1" = sh ]; then
    :
  elif [[ $said =~ \`([^\`/]+)\`:$ ]]; then
    file "${BASH_REMATCH[1]}"
  elif [[ $said =~ \`([^\`/]+)\`' has:'$ ]]; then
    part "${BASH_REMATCH[1]}"
  else
    fault "$first" 'the block is no file, no part of a file, no console and no sh'
  fi
  said=
}

# bytes_before LINE COLUMN: puts into `bytes` how many bytes stand before this column of the line
bytes_before() {
  local column=0 size=${#1}
  bytes=0
  while [ "$column" -lt "$2" ] && [ "$bytes" -lt "$size" ]; do
    bytes=$((bytes + 1))
    while [[ ${1:bytes:1} == [$'\x80'-$'\xbf'] ]]; do bytes=$((bytes + 1)); done
    column=$((column + 1))
  done
  [ "$column" = "$2" ]
}

# point K OFFSET: the line K is a `^` under the line before it, which begins at this offset
point() {
  [ -z "$caret" ] || fault "$caret_line" 'no command says at which byte'
  caret_line=$((first + $1))
  bytes_before "${lines[$1 - 1]}" $((${#lines[$1]} - 1)) || fault "$caret_line" 'the ^ is under no byte'
  caret=$(($2 + bytes))
}

# file NAME: writes the block's lines to this file
file() {
  local k offset=0 start=0 last=$((${#lines[@]} - 1))
  : >"$work/top/try/$1"
  for k in "${!lines[@]}"; do
    if [ "$k" -gt 0 ] && [[ ${lines[k]} =~ ^\ *\^$ ]]; then
      point "$k" "$start"
    elif [ -z "${lines[k]}" ] && [ $((k + 1)) = "$last" ] && [ "${lines[last]}" = '^' ]; then
      start=$offset
    else
      printf '%s\n' "${lines[k]}" >>"$work/top/try/$1"
      start=$offset
      offset=$((offset + ${#lines[k]} + 1))
    fi
  done
}

# part NAME: the block's lines stand in this file
part() {
  local whole
  if [ ! -f "$work/top/try/$1" ]; then
    fault "$first" "there is no $1"
    return
  fi
  whole=$(printf '\n'; cat "$work/top/try/$1"; echo .)
  [[ $whole == *$'\n'"$(printf '%s\n' "${lines[@]}")"$'\n'* ]] || fault "$first" "these lines don't stand in $1"
}

# commands: runs the block's commands
commands() {
  local k=0 count=${#lines[@]} command at
  if [ "$count" = 0 ] || [[ ${lines[0]} != '$ '* ]]; then
    fault "$first" 'a console begins with a command'
    return
  fi
  while [ "$k" -lt "$count" ]; do
    command=${lines[k]#'$ '}
    at=$((first + k))
    k=$((k + 1))
    while [[ $command == *\\ ]] && [ "$k" -lt "$count" ]; do
      command+=$'\n'${lines[k]}
      k=$((k + 1))
    done
    wanted=()
    while [ "$k" -lt "$count" ] && [[ ${lines[k]} != '$ '* ]]; do
      wanted+=("${lines[k]}")
      k=$((k + 1))
    done
    run "$command" "$at" $((first + k - ${#wanted[@]}))
  done
}

# whole FILE: its bytes, with a line feed at the end where there is none
whole() {
  cat "$1"
  [ -z "$(tail -c 1 "$1")" ] || echo
}

# run COMMAND LINE NEXT: runs the command of this line of the page; what it is to print begins at the line NEXT
run() {
  local status
  if [[ $1 =~ ^(cc |\./) ]] && ! command -v cc >/dev/null 2>&1; then
    skipped=$((skipped + 1))
    return
  fi
  (cd "$work/top/try" && PATH="$work/bin:$PATH" exec bash -c "$1") </dev/null >"$work/out" 2>"$work/said"
  status=$?
  ran=$((ran + 1))
  { whole "$work/out"; whole "$work/said"; } >"$work/got"
  [ "$status" = 0 ] || echo "[status $status]" >>"$work/got"
  { [ "${#wanted[@]}" = 0 ] || printf '%s\n' "${wanted[@]}"; } >"$work/wanted"
  cmp -s "$work/got" "$work/wanted" || differ "$@"
  pointed "$2"
}

# differ COMMAND LINE NEXT: says where what the command printed differs first from what stands on the page
differ() {
  local k=0 got
  mapfile -t got <"$work/got"
  while [ "$k" -lt "${#wanted[@]}" ] && [ "$k" -lt "${#got[@]}" ] && [ "${got[k]}" = "${wanted[k]}" ]; do
    k=$((k + 1))
  done
  fault $(($3 + k)) "of \`$1\` here stands: ${wanted[k]-nothing more}"
  echo "  but it gives: ${got[k]-nothing more}"
}

# pointed LINE: where a `^` waits for the place that a command says, and this one says one, it is the same
pointed() {
  local place
  place=$(sed -n 's/^.* at \([0-9][0-9]*\)$/\1/p' "$work/got" | tail -n 1)
  if [ -n "$caret" ] && [ -n "$place" ]; then
    [ "$place" = "$caret" ] || fault "$caret_line" "the ^ is at $caret, and line $1 says $place"
    caret=
  fi
}

# checked PAGE: goes through a page
checked() {
  local gap=1
  page=$1 number=0 said='' caret='' ran=0
  if [ ! -f "$page" ]; then
    echo "there is no page $page"
    bad=1
    return
  fi
  folder
  while IFS= read -r line || [ -n "$line" ]; do
    number=$((number + 1))
    case $line in
      '```'*) block "${line#'```'}" ;;
      ' '*'```'*) fault "$number" 'a block begins at the front of a line' ;;
      '') gap=1 ;;
      *)
        [ "$gap" = 1 ] && said=
        said="$said $line"
        gap=0
        ;;
    esac
  done <"$page"
  [ -z "$caret" ] || fault "$caret_line" 'no command says at which byte'
  echo "$(basename "$page"): $ran commands run as on the page"
}

[ $# -gt 0 ] || set -- "$here/TUTORIAL.md" "$here/ANSWERS.md"
for words in "$@"; do
  checked "$words"
done
[ "$skipped" = 0 ] || echo "skipped: there is no cc, so $skipped commands were not run"
exit "$bad"
