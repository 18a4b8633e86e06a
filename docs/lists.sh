#!/usr/bin/env bash
# Sees that what pages list is what the tree has:
#
# - README.md, under "What is proved", and ARCHITECTURE.md have a row for each crate of crates.txt, and for no other. A row
#   of README.md may be of several crates.
# - DECISIONS.md has a row for each crate whose lemmas another crate cites, with the files of proofs/ that they stand in,
#   and for no other.
# - A page that says of a crate how many edits it has, as in "a_crate (7 edits)", says it rightly, and DECISIONS.md says it
#   of each crate that has more than five. Crates that ARCHITECTURE.md has as of no code have none.
#
# What a page has too much or too little is printed, and the status is then 1.
set -u
here=$(cd "$(dirname "$0")" && pwd)
top=$(dirname "$here")
bad=0
work=$(mktemp -d)
trap 'rm -rf "$work"' EXIT
export LC_ALL=C

# same WHAT: the sorted lists `page` and `tree` are the same
same() {
  local line
  while IFS= read -r line; do
    echo "$1 lacks: $line"
    bad=1
  done < <(comm -13 "$work/page" "$work/tree")
  while IFS= read -r line; do
    echo "$1 has, and the tree has not: $line"
    bad=1
  done < <(comm -23 "$work/page" "$work/tree")
}

# crates: each crate of crates.txt
crates() {
  sed -nE 's/^([a-z_0-9]+)( [^:]*)?:.*/\1/p' "$top/crates.txt"
}

# in_readme: the crates in the rows of README.md; in_architecture: those in the rows of ARCHITECTURE.md
in_readme() {
  sed -n '/^## What is proved/,/^## What is not claimed/p' "$top/README.md" |
    sed -nE 's/^\| ([a-z_0-9, ]+) \|.*/\1/p' | tr -s ', ' '\n'
}
in_architecture() {
  # shellcheck disable=SC2016
  sed -nE 's/^\| \[`([a-z_0-9]+)`\]\(\.\.\/crates\/.*/\1/p' "$here/ARCHITECTURE.md"
}

# cited: a line CRATE FILE for each file of lemmas that a crate cites of another one, by a `use` of a proof or in code
cited() {
  (
    cd "$top/crates" || exit 1
    find . -name out -prune -o -name '*.antt' -exec grep -HoE '^use Rattle\.[a-z_0-9]+\.proofs\.[A-Za-z_0-9]+' {} +
    find . -name out -prune -o -name '*.rt' -exec grep -HoE '[( ,][a-z_0-9]+::proofs::[A-Za-z_0-9]+' {} +
  ) | sed -nE 's/^\.\/([a-z_0-9]+)\/[^:]*:(use Rattle\.|[( ,])([a-z_0-9]+)(\.|::)proofs(\.|::)([A-Za-z_0-9]+)$/\1 \3 \6/p' |
    while read -r crate other file; do
      [ "$crate" = "$other" ] || [ ! -d "$top/crates/$other" ] || echo "$other $file"
    done
}

# in_decisions: the same, by the rows of DECISIONS.md
in_decisions() {
  sed -n '/^| Lemmas of |/,/^$/p' "$here/DECISIONS.md" | sed -nE 's/^\| ([a-z_0-9]+) \| ([^|]*) \|.*/\1 \2/p' |
    while read -r crate files; do
      for file in ${files//[\`,]/ }; do echo "$crate $file"; done
    done
}

# edits CRATE: how many edits it has
edits() {
  find "$top/crates/$1/must-fail" -name '*.edit' 2>/dev/null | wc -l
}

crates | sort >"$work/tree"
in_readme | sort >"$work/page"
same "README.md's table of crates"
in_architecture | sort >"$work/page"
same "ARCHITECTURE.md's table of crates"

cited | sort -u >"$work/tree"
in_decisions | sort >"$work/page"
same "DECISIONS.md's table of shared lemmas"

for page in "$top/README.md" "$here"/*.md; do
  while read -r crate count _; do
    [ "$(edits "$crate")" = "$count" ] && continue
    echo "$page: $crate has $(edits "$crate") edits, and not $count"
    bad=1
  done < <(grep -oE '[a-z_0-9]+ \([0-9]+ edits\)' "$page" | tr -d '()')
done
while read -r crate; do
  if [ "$(edits "$crate")" -gt 5 ] && ! grep -qE "(^|[^a-z_0-9])$crate \([0-9]+ edits\)" "$here/DECISIONS.md"; then
    echo "DECISIONS.md doesn't say of $crate that it has $(edits "$crate") edits"
    bad=1
  fi
done < <(crates)
# shellcheck disable=SC2016
while read -r crate; do
  [ "$(edits "$crate")" = 0 ] && continue
  echo "ARCHITECTURE.md says that $crate is of no code, but it has edits"
  bad=1
done < <(sed -nE 's/^\| \[`([a-z_0-9]+)`\].*; no code \|$/\1/p' "$here/ARCHITECTURE.md")
[ "$bad" = 0 ] && echo "$(crates | wc -l) crates and $(wc -l <"$work/tree") files of shared lemmas stand as pages list them"
exit "$bad"
