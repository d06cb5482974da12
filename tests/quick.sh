#!/usr/bin/env bash
# Shows what ./anno answers in a clone in which nothing is built: the README's first line, words
# that are not understood and a trial, each by a quick run with the output and the status that are
# due; and which words it refuses to run. It runs over a copy of the sources, so ANNO is passed
# over; it needs `rt`. It takes some minutes. Ends with 0 where all is as it is due.
set -u
top=$(cd "$(dirname "$0")/.." && pwd)
work=$(mktemp -d)
trap 'rm -rf "$work"' EXIT
tar -C "$top" --exclude=out -cf - anno built.sh crates crates.txt examples |
  tar -C "$work" -xf - || exit 1
cd "$work" || exit 1
asked=0
wrong=0

# Compares a text that was found to one that is due.
due() {
  asked=$((asked + 1))
  if [ "$2" != "$3" ]; then
    wrong=$((wrong + 1))
    printf 'wrong: %s\n  found %s\n  due   %s\n' "$1" "$2" "$3"
  fi
}

# What ./anno prints for these words over the lines of the example, and its status.
answer() {
  local status=0
  ./anno "$@" <examples/log.lines 2>said || status=$?
  echo "status $status"
}

due 'the first line of the README' "$(answer - find http://a.example 10)" \
  "$(cat crates/anno/stdout)"$'\nstatus 0'
due 'it says that nothing is proved' "$(head -n 1 said)" "anno: a quick run of the sources, which\
 takes under a minute and proves nothing; ./build proves"
due 'a base that is none' "$(answer - find FOO 10)" $'words not understood\nstatus 2'
due 'a line of help' "$(tail -n 1 said)" \
  'anno: ./anno --help shows the forms that words can have'
due 'a trial, as docs/REFERENCE.md has it' "$(answer - trial 3 1)" \
  "$(sed -n '/^notes 3 public 2$/,/^```$/p' "$top/docs/REFERENCE.md" | sed '$d')"$'\nstatus 0'
due 'a form at a store in memory' "$(answer - export -)" 'status 0'
due 'a store on a file' "$(answer notes.db export -)" 'status 70'
due 'a server' "$(answer - serve http://a.example 10 8080 1 1)" 'status 70'
echo "$asked asked, $wrong wrong"
[ "$wrong" -eq 0 ]
