#!/usr/bin/env bash
# Shows what a server reports on standard error: where it listens; once it takes no more
# connections, how many are still open; how many writes its keeper failed to keep; and at an
# orderly end what it served. A store in memory, one on a file, and one whose files may not grow
# (the limit of `ulimit -f`) are served to clients whose requests are counted. A signal ends a
# server without a report. What is reported where memory runs out stands in memory.sh. Installs by
# apt-get, where they aren't there: curl and python3. Ends with 0 only where each line is as it is
# due.
set -eu
. "$(dirname "$0")/program.sh"
need curl:curl /usr/bin/python3:python3
python=/usr/bin/python3
export PYTHONPATH=$top/tests
# Below the ports that the system gives to clients.
port=$((20000 + RANDOM % 12000))
at=http://127.0.0.1:$port
said=$work/said
store=$work/store.db
server=
asked=0
wrong=0
trap '[ -z "$server" ] || kill "$server" 2>/dev/null || true; rm -rf "$work"' EXIT

# Compares what a server said to standard input, but for how far an opening was, and how long it
# ran.
compare() {
  asked=$((asked + 1))
  cat >"$work/due"
  sed -E '/^opening the store: /d; s/^ended after [0-9]+ s:/ended after N s:/' "$said" \
    >"$work/found"
  if ! diff "$work/found" "$work/due" >"$work/difference"; then
    wrong=$((wrong + 1))
    echo "wrong: $1"
    cat "$work/difference"
  fi
}

# Waits until a server has said something with this text, for ten seconds at most.
await_said() {
  local _
  for _ in {1..100}; do
    if grep -q "$1" "$said"; then return 0; fi
    sleep 0.1
  done
}

# Each first connection is that of `await`, over which nothing is asked.

"$program" - serve "$at" 10 "$port" 2 2 >"$work/printed" 2>"$said" &
server=$!
await "$port"
exec 3<>"/dev/tcp/127.0.0.1/$port"
await_said 'still open'
printf 'GET /changes HTTP/1.1\r\n\r\nGET /nowhere HTTP/1.1\r\nConnection: close\r\n\r\n' >&3
timeout 10 cat <&3 >"$work/replies" || true
exec 3<&-
wait "$server" || true
compare 'a store in memory, whose last connection stays open' <<DUE
listening on $at
no more connections are taken; still open: 1
ended after N s: connections 2, replies 2, 503 memory 0, 500 keeper 0
DUE

"$python" -c 'import sys, served; served.new_store(*sys.argv[1:])' "$program" "$store"
note='{"type":"Annotation","bodyValue":"heron","target":"http://a.example/c1"}'
path=$at/annotations/mara/n1
ask=(--silent --max-time 20 --output "$work/reply")
"$program" "$store" serve "$at" 10 "$port" 1 2 >"$work/printed" 2>"$said" &
server=$!
await "$port"
for _ in made again; do
  put=("${ask[@]}" --request PUT --header 'Authorization: Bearer token-of-mara'
    --data-binary "$note" "$path?version=1&manifest=m1" --next)
  puts+=("${put[@]}")
done
curl "${puts[@]}" "${ask[@]}" "$path"
wait "$server" || true
compare 'a store on a file, with one write that is kept and one that repeats it' <<DUE
listening on $at
ended after N s: connections 2, replies 3, commits 1, 503 memory 0, 500 keeper 0
DUE

(
  trap '' XFSZ
  ulimit -f 512
  exec "$program" "$store" serve "$at" 10 "$port" 1 2 >"$work/printed" 2>"$said"
) &
server=$!
await "$port"
kept=$("$python" - "$port" <<'PYTHON'
import sys
from served import Connection, note_text
connection, text = Connection(int(sys.argv[1])), note_text("heron " * 1000)
kept, refused = 0, 0
for number in range(2, 900):
    target = f"/annotations/mara/n{number}?version=1&manifest=m1"
    status, _ = connection.ask("PUT", target, "mara", text)
    kept += status == 201
    refused += status == 500
    if refused == 3:
        break
print(kept)
PYTHON
)
wait "$server" || true
compare "a store whose files may not grow, after $kept writes" <<DUE
listening on $at
requests refused with 500 keeper since the last such line: 1
ended after N s: connections 2, replies $((kept + 3)), commits $kept, 503 memory 0, 500 keeper 3
DUE

"$program" "$store" serve "$at" 10 "$port" 1 0 >"$work/printed" 2>"$said" &
server=$!
await "$port"
curl "${ask[@]}" "$path"
kill "$server"
wait "$server" 2>/dev/null || true
server=
compare 'a server that a signal ends' <<DUE
listening on $at
DUE
echo "$asked compared, $wrong wrong"
[ "$wrong" -eq 0 ]
