#!/usr/bin/env bash
# Gives the texts of the table `inputs` to the program that the gate leaves, by `exec`, and to compiled C texts with
# driver.h and the pipeline.h that prints rows: both write what the table says, end with the same status, and have the
# same line but for the name before it. So they do with files at their limits, files that aren't there or can't be read,
# inputs that aren't given, traps, and output that can't be written.
set -eu
. "$(dirname "$0")/running.sh"
. "$top/examples/inputs.sh"
exec 3>&1
cd "$work"

# made NAME TEXT: makes the C text NAME.c of a pipeline, and a program of it
made() {
  printf '%s\n' "$2" >"$1.strm"
  "$program" compile "$1.strm" >"$1.c"
  built "$1"
}

# fault WORDS: says what is wrong, and ends
fault() {
  echo "$1" >&3
  exit 1
}

# both STATUS LINE NAME WORD..: over these words the text and the program of this name end so, and write the same
both() {
  local wanted=$1 line=$2 name=$3 got
  shift 3
  got=0
  "$program" exec "$name.c" "$@" >out 2>said || got=$?
  [ "$got: $(cat said)" = "$wanted: ${line:+strymonas: }$line" ] || fault "exec of $name over '$*' ends with $got: $(cat said)"
  got=0
  "./$name" "$@" >rows 2>said || got=$?
  [ "$got: $(cat said)" = "$wanted: ${line:+pipeline: }$line" ] || fault "the program of $name over '$*' ends with $got: $(cat said)"
  cmp -s out rows || fault "over '$*' exec of $name writes $(head -c 200 out), and the program $(head -c 200 rows)"
  inputs=$((inputs + 1))
}

# given KIND ANSWER TEXT: what both answer to a row of the table
given() {
  local text status=0 line=''
  case $2 in gives*) ;; *) status=9 line="bad input: 0: $2" ;; esac
  if [ "$1" = array ]; then
    printf '%b' "$3" >v
    both "$status" "$line" array v
  else
    text=$(printf '%b.' "$3")
    both "$status" "$line" int "${text%.}"
  fi
  [ "$status" != 0 ] || [ "$(rows_of "$2")" = "$(cat rows)" ] || fault "of $3 both write $(head -c 200 rows)"
}

made array 'input a: array; array a | print'
made int 'input k: int; range(0, 1) | map x -> k | print'
each_input given

# files
both 2 'missing: nowhere' array nowhere
both 2 'missing: ' array ''
both 6 'read fault: .' array .
both 6 'read fault: v/v' array v/v
head -c 67108865 /dev/zero | tr '\0' ' ' >v
both 10 'too long: v' array v
head -c 67108864 /dev/zero | tr '\0' ' ' >v
both 0 '' array v
[ ! -e /dev/zero ] || both 10 'too long: /dev/zero' array /dev/zero
[ ! -e /dev/null ] || both 0 '' array /dev/null
yes 1 | head -n 4194304 >v
both 0 '' array v
echo x >>v
both 9 'bad input: 0: TooMany at 8388608' array v
printf 1 >v

# words
both 9 'bad input: 0: absent' int
both 9 'bad input: 1: unknown' int 1 2
both 9 'bad input: 1: unknown' int x 2
made several 'input k: int; input a: array; input m: int; array a | map x -> k / x + m | print'
both 9 'bad input: 0: absent' several
both 9 'bad input: 2: absent' several x nowhere
both 9 'bad input: 3: unknown' several x nowhere x x
both 9 'bad input: 0: not a number' several x nowhere x
both 2 'missing: nowhere' several 1 nowhere x
both 9 'bad input: 2: not a number' several 1 v x
both 0 '' several 7 v -3
printf '5 0 7' >v
both 4 'trap' several 10 v 1

# unwritten NAME WORD..: neither can write what they have to
unwritten() {
  local name=$1 got
  shift
  got=0
  "$program" exec "$name.c" "$@" >/dev/full 2>said || got=$?
  [ "$got: $(cat said)" = '7: strymonas: write fault' ] || fault "into a full device exec of $name ends with $got: $(cat said)"
  got=0
  timeout 60 "./$name" "$@" >/dev/full 2>said || got=$?
  [ "$got: $(cat said)" = '7: pipeline: write fault' ] || fault "into a full device the program of $name ends with $got: $(cat said)"
  got=0
  (trap '' PIPE; sleep 0.2; timeout 60 "./$name" "$@" 2>said || got=$?; echo "$got" >status) | true
  [ "$(cat status): $(cat said)" = '7: pipeline: write fault' ] || fault "into a closed pipe the program of $name ends with $(cat status): $(cat said)"
  inputs=$((inputs + 1))
}

if [ -w /dev/full ]; then
  printf '1 2 3' >v
  unwritten array v
  unwritten several 1 v 1
  made endless 'unfold 0 with i while true yield i next i + 1 | print'
  unwritten endless
fi
echo "compiled programs and exec answer the same, and as the table says, for $inputs inputs"
