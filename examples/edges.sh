#!/usr/bin/env bash
# What the program answers at the edges of real files and devices: the status and the line of each. Each text of the
# table `inputs` is given to `run`.
set -u
. "$(dirname "$0")/program.sh"
. "$top/examples/inputs.sh"
cd "$top/examples" || exit 1
bad=0
count=0

# answers STATUS LINE WORDS..: in the folder `work` the words end with this status and this line, if any
answers() {
  local status=$1 line=$2 got
  shift 2
  count=$((count + 1))
  (cd "$work" && "$program" "$@" >out 2>said)
  got=$?
  if [ "$got" != "$status" ] || [ "$(cat "$work/said")" != "$line" ]; then
    echo "strymonas $*: status $got for $status, line: $(cat "$work/said")"
    bad=1
  fi
}

# values BYTES: the bytes, with escapes as of printf, are the value file v
values() {
  printf '%b' "$1" >"$work/v"
}

# wrote LINES: the program wrote these lines
wrote() {
  if [ "$(cat "$work/out")" != "$1" ]; then
    echo "wrote $(cat "$work/out") for $1"
    bad=1
  fi
}

# given KIND ANSWER TEXT: what `run` answers to a row of the table
given() {
  local text status=0 line=''
  case $2 in gives*) ;; *) status=9 line="strymonas: bad input: a: $2" ;; esac
  if [ "$1" = array ]; then
    values "$3"
    answers "$status" "$line" run p a=v
  else
    text=$(printf '%b.' "$3")
    answers "$status" "$line" run k "a=${text%.}"
  fi
  [ "$status" != 0 ] || wrote "$(rows_of "$2")"
}

echo 'input a: array; array a | print' >"$work/p"
echo 'input a: int; range(0, 1) | map x -> a | print' >"$work/k"
echo 'unfold 0 with i while true yield i next i + 1 | print' >"$work/endless"

each_input given
values 1
answers 6 'strymonas: read fault: .' run p a=.
answers 6 'strymonas: read fault: .' run . a=v
answers 2 'strymonas: missing: nowhere' run p a=nowhere
answers 2 'strymonas: missing: nowhere' exec nowhere
answers 5 'strymonas: spent: 10' run endless --turns 10
wrote $'0\n1\n2\n3\n4\n5\n6\n7\n8\n9'
answers 12 'strymonas: too much' model endless --pulls 1000000
answers 1 'strymonas: words' run p a

head -c 65537 /dev/zero | tr '\0' ' ' >"$work/long"
answers 10 'strymonas: too long: long' check long
head -c 67108865 /dev/zero | tr '\0' ' ' >"$work/v"
answers 10 'strymonas: too long: v' run p a=v
head -c 67108864 /dev/zero | tr '\0' ' ' >"$work/v"
answers 0 '' run p a=v
yes 1 | head -n 4194305 >"$work/v"
answers 9 'strymonas: bad input: a: TooMany at 8388608' run p a=v
rm -f "$work/v"

printf '#include "pipeline.h"\nint pipeline(void) {\n  EMIT((1ULL / 0ULL));\n  return 0;\n}\n' >"$work/c"
answers 11 'strymonas: undefined' exec c
printf '#include "pipeline.h"\nint pipeline(void) {\n  EMIT(v1);\n  return 0;\n}\n' >"$work/c"
answers 3 'strymonas: refused: Unbound at 50' exec c

if [ -w /dev/full ]; then
  count=$((count + 1))
  "$program" run "$work/endless" >/dev/full 2>"$work/said"
  got=$?
  if [ "$got" != 7 ] || [ "$(cat "$work/said")" != 'strymonas: write fault' ]; then
    echo "a full device: status $got, line: $(cat "$work/said")"
    bad=1
  fi
fi
count=$((count + 1))
(trap '' PIPE && "$program" run "$work/endless" 2>"$work/said"; echo $? >"$work/status") | head -c 1 >/dev/null
if [ "$(cat "$work/status")" != 7 ]; then
  echo "a closed pipe: status $(cat "$work/status"), line: $(cat "$work/said")"
  bad=1
fi
[ "$bad" = 0 ] && echo "edges: $count answers as they are to be"
exit "$bad"
