#!/usr/bin/env bash
# Sees that the files that pages name are there: in `backticks` from crates/ on and without an ending, as
# `pipe_tree/src/tree`, and behind links, as [crates.txt](../crates.txt).
#
#   docs/names.sh [PAGE ..]
#
# Without words it goes through README.md and all pages of this folder, and sees too that ANSWERS.md tells each status
# and each kind of refusal that the lines of status_lines have. What is missing is printed, and the status is then 1.
set -u
here=$(cd "$(dirname "$0")" && pwd)
top=$(dirname "$here")
bad=0
count=0

# found NAME: there is a file or a folder of this name in crates/, with or without an ending
found() {
  local ending
  for ending in '' .rt .antt; do
    [ -e "$top/crates/$1$ending" ] && return 0
  done
  return 1
}

# lost PAGE NAME: says on which line the page names it
lost() {
  echo "$1:$(grep -n -m 1 -F -- "$2" "$1" | cut -d: -f1): there is no $2"
  bad=1
}

# names PAGE: the files that it names in backticks; links PAGE: those behind its links
names() {
  # shellcheck disable=SC2016
  grep -oE '`[a-z_0-9]+/(src|specs|proofs|must-fail)(/[^` ]*)?`' "$1" | tr -d '`' | sort -u
}
links() {
  grep -oE '\]\([^)#: ]+' "$1" | cut -c3- | sort -u
}

# kinds: the words of the lines. NoMemory stands in none
kinds() {
  cat "$top/crates/status_lines/specs/FaultTexts.antt" "$top/crates/status_lines/specs/StatusLines.antt" |
    sed -nE 's/^.*codes "([A-Za-z][A-Za-z ]*).*$/\1/p' | grep -vx -e NoMemory -e strymonas | sort -u
}

# answered KIND: ANSWERS.md has a line of this kind
answered() {
  count=$((count + 1))
  grep -qE "^(\| \`)?strymonas: .*$1" "$here/ANSWERS.md" && return
  echo "$here/ANSWERS.md: no line tells: $1"
  bad=1
}

if [ $# = 0 ]; then
  set -- "$top/README.md" "$here"/*.md
  while IFS= read -r kind; do
    answered "$kind"
  done < <(kinds)
fi
for page in "$@"; do
  while IFS= read -r name; do
    count=$((count + 1))
    found "$name" || lost "$page" "$name"
  done < <(names "$page")
  while IFS= read -r link; do
    count=$((count + 1))
    [ -e "$(dirname "$page")/$link" ] || lost "$page" "$link"
  done < <(links "$page")
done
echo "$count names on $# pages"
exit "$bad"
