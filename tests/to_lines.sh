#!/usr/bin/env bash
# Plays tools/to_lines.py on the inputs in tests/to_lines/, each folder a case: `words` are the
# words of the command, `lines` what is due on standard output, and `told` what is due on standard
# error, with the status behind it. What is due was worked out from the rules that the command and
# its modules state. Then the lines of each case are imported into a store of its own, behind
# `before.lines`, by ./anno or by the program that ANNO names: each has to be accepted. Ends with 0
# where all is as it is due.
set -u
top=$(cd "$(dirname "$0")/.." && pwd)
anno=${ANNO:-$top/anno}
work=$(mktemp -d)
trap 'rm -rf "$work"' EXIT
played=0
wrong=0

# Compares a file that was found to one that is due.
compare() {
  if ! diff "$3" "$2" >"$work/difference"; then
    wrong=$((wrong + 1))
    echo "wrong: $1 (< is due, > was found)"
    cat "$work/difference"
  fi
}

# How many lines of a case put again what stands there before.
repeats() {
  local both=0
  if [ -f "$1/before.lines" ]; then
    both=$(cut -d ' ' -f 2- "$1/before.lines" | grep -cFxf - <(cut -d ' ' -f 2- "$1/lines"))
  fi
  echo "$both"
}

# Imports what is due of a case into a new store, behind what stands there before.
import() {
  local name=$1 folder=$2 count repeated
  cat "$top/tests/to_lines/before.lines" "$folder/lines" >"$work/input"
  if [ -f "$folder/before.lines" ]; then
    cat "$top/tests/to_lines/before.lines" "$folder/before.lines" "$folder/lines" >"$work/input"
  fi
  count=$(grep -c . "$work/input")
  repeated=$(repeats "$folder")
  "$anno" "$work/$name.db" import <"$work/input" >"$work/found" 2>"$work/why"
  echo "accepted $((count - repeated)) repeated $repeated old 0" >"$work/due"
  compare "$name, the import" "$work/found" "$work/due"
}

for folder in "$top"/tests/to_lines/*/; do
  name=$(basename "$folder")
  played=$((played + 1))
  read -r -a words <"$folder/words"
  (cd "$folder" && python3 "$top/tools/to_lines.py" "${words[@]}") >"$work/lines" 2>"$work/told"
  echo "status $?" >>"$work/told"
  compare "$name, lines" "$work/lines" "$folder/lines"
  compare "$name, told" "$work/told" "$folder/told"
  import "$name" "$folder"
done
# An annotation of more bytes than a PUT over HTTP may have: it is told so, and imported.
played=$((played + 1))
{
  printf '{"id":"long","type":"Annotation","target":"http://a.example/log/1","bodyValue":"'
  head -c 1100000 /dev/zero | tr '\0' a
  printf '"}'
} >"$work/long.json"
python3 "$top/tools/to_lines.py" --owner mara --manifest log --at 2024-05-01T10:00:00Z \
  "$work/long.json" >"$work/lines" 2>"$work/told"
{
  echo 'note: long.json (long): it has more than 1,048,576 bytes: an import takes it,' \
    "a PUT over HTTP doesn't"
  echo 'mended: a `bodyValue` written as a body: 1, first at long.json (long)'
  echo 'manifests 0, annotations 1, mended 1, left out 0'
} >"$work/due"
compare 'what is told of a long annotation' "$work/told" "$work/due"
import long "$work"

# A command that isn't understood, with the status 2 and nothing on standard output.
refuse() {
  played=$((played + 1))
  python3 "$top/tools/to_lines.py" "$@" >"$work/lines" 2>/dev/null
  echo "status $?" >>"$work/lines"
  echo 'status 2' >"$work/due"
  compare "$*" "$work/lines" "$work/due"
}

refuse
refuse --owner Mara notes.json
refuse --owner - notes.json
refuse --at 2024-05-01 notes.json
refuse --at 2024-02-30T00:00:00Z notes.json
refuse --first-canvas 0 notes.json
refuse --owner mara --manifest log
refuse --owner mara --since missing.lines notes.json
refuse --manifest-group private notes.json
refuse --base http://a.example/ notes.json
echo "$played cases, $wrong wrong"
[ "$wrong" -eq 0 ]
