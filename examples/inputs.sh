# Sourced, behind program.sh, by scripts that go through the table `inputs`.
# shellcheck shell=bash disable=SC2034,SC2154

# each_input CALL: calls this with the kind, the answer and the text of each row of the table; the text is one word,
# in which what printf takes for %b stands for the bytes
each_input() {
  local row kind answer text
  while IFS= read -r row; do
    case $row in '' | '#'*) continue ;; esac
    kind=${row%% *}
    answer=${row#* }
    text=${answer#*" |"}
    answer=${answer%%" |"*}
    "$1" "$kind" "$answer" "${text# }"
  done <"$top/examples/inputs"
}

# rows_of ANSWER: the numbers behind `gives`, a line for each
rows_of() {
  local number
  # shellcheck disable=SC2086
  for number in ${1#gives}; do echo "$number"; done
}
