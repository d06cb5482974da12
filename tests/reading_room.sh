#!/usr/bin/env bash
# Plays examples/reading-room: its lines are those that its texts come to, `start` makes a store and
# serves it, readers find what they may read, a second start serves the store that is there, and
# Ctrl-C ends it. The numbers that are due were counted in the texts. ./anno serves, or the program
# that ANNO names. Ends with 0 where all is as it is due.
set -u
top=$(cd "$(dirname "$0")/.." && pwd)
room=$top/examples/reading-room
work=$(mktemp -d)
# Below the ports that the system gives to clients.
port=$((20000 + RANDOM % 12000))
at=http://127.0.0.1:$port
start=
asked=0
wrong=0
trap '[ -z "$start" ] || kill "$start" 2>/dev/null; rm -rf "$work"' EXIT

# Compares a text that was found to one that is due.
due() {
  asked=$((asked + 1))
  if [ "$2" != "$3" ]; then
    wrong=$((wrong + 1))
    printf 'wrong: %s\n  found %s\n  due   %s\n' "$1" "$2" "$3"
  fi
}

# Starts the room on the store of the test, and waits for the last line that it prints.
open_room() {
  env --default-signal=INT "$room/start" "$work/room.db" "$port" >"$work/printed" 2>&1 &
  start=$!
  for _ in $(seq 1200); do
    if grep -q '^Ctrl-C ends it' "$work/printed" || ! kill -0 "$start" 2>/dev/null; then return; fi
    sleep 0.1
  done
}

# Ends the room as Ctrl-C does.
close_room() {
  kill -INT "$start"
  wait "$start"
  due 'the status behind Ctrl-C' "$?" 0
  start=
}

# How many annotations a search for a word finds, by the token of a reader or by nobody.
total() {
  curl --silent --max-time 20 --get ${3:+--header "Authorization: Bearer $3"} \
    --data-urlencode "q=$2" "$at/search/$1" | grep -o '"total":[0-9]*' | head -n 1
}

# The parts of what an address is answered with that fit a pattern.
parts() {
  curl --silent --max-time 20 "$1" | grep -o "$2" | tr '\n' ' '
}

"$room/make-lines" | cmp -s - "$room/lines"
due 'the lines are those of the texts' "$?" 0

open_room
due 'what is imported' "$(grep '^accepted' "$work/printed")" 'accepted 305 repeated 0 old 0'
due 'lines and remarks with a word' "$(total log heron)" '"total":3'
due 'a word in Greek' "$(total log 'λάδι')" '"total":1'
due 'a word in Russian, whatever its case' "$(total log 'шхуна')" '"total":2'
due 'a word in Arabic' "$(total log 'القبطان')" '"total":2'
due 'a word of the map' "$(total map Odessa)" '"total":1'
due 'a note of the keepers, to nobody' "$(total log gall)" '"total":0'
due 'a note of the keepers, to one of them' "$(total log gall tok-leila-room)" '"total":1'
due 'a note of the keepers, to an editor' "$(total log gall tok-tomas-room)" '"total":0'
due 'a private note, to its owner' "$(total log "sailors'" tok-tomas-room)" '"total":1'
due 'a private note, to a curator' "$(total log "sailors'" tok-ines-room)" '"total":0'
due 'a completion' "$(parts "$at/autocomplete/log?q=heron" '"total":[0-9]*,"value":"[a-z]*"')" \
  '"total":3,"value":"heron" "total":4,"value":"herons" '
due 'the annotations on a page' "$(parts "$at/manifests/log/canvases/3" '/annotations/' | wc -w)" 8
close_room

open_room
due 'a second start imports nothing' "$(grep -c '^accepted' "$work/printed")" 0
due 'a second start serves the same store' "$(total log heron)" '"total":3'
close_room

echo "$asked asked, $wrong wrong"
[ "$wrong" -eq 0 ]
