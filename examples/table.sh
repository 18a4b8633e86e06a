# Sourced, in the folder of the examples, by scripts that go through the table `runs`.
# shellcheck shell=bash disable=SC2034

# value_of INPUT BINDING..: the value to which the bindings bind the input
value_of() {
  local input=$1 binding
  shift
  for binding in "$@"; do
    case $binding in "$input="*) echo "${binding#*=}" ;; esac
  done
}

# take_words NAME WORD..: of the words of a row of the table, `turns` are those that say how many turns there are,
# if any, `bindings` those that bind inputs, and `values` what they bind them to, in the order in which NAME.strm
# declares its inputs
take_words() {
  local name=$1 input
  shift
  turns=() values=()
  if [ "${1:-}" = --turns ]; then
    turns=("$1" "$2")
    shift 2
  fi
  bindings=("$@")
  while read -r input; do
    values+=("$(value_of "$input" "$@")")
  done < <(sed -n 's/^input \([^:]*\):.*/\1/p' "$name.strm")
}
