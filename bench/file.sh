#!/usr/bin/env bash
# file.sh [SECONDS [LINES [CELLS]]]: times a store on a file beside SQLite itself (Python's, which
# is Debian's), in the same minutes. The file stands in TMPDIR. It prints
# - acknowledged writes a second over one connection and over eight, for SECONDS (5) each, beside
#   the commits of the same two cells by SQLite, which keeps a log and waits for the disk at each
#   (WAL, synchronous=FULL);
# - an import of LINES (10,000) annotations of 32 words into a file, beside the same commits by
#   SQLite, and beside the import in memory: microseconds of a processor a line, and lines a second;
# - the opening of a store of CELLS (400,000) cells beside the integrity check of sqlite3: seconds
#   of a processor; and the peak of memory of the opening beside the memory of the open store.
# Installs by apt-get, where they aren't there: wrk, sqlite3, python3.
set -eu
. "$(dirname "$0")/measure.sh"
. "$(dirname "$0")/inputs.sh"
. "$(dirname "$0")/sockets.sh"
need wrk:wrk sqlite3:sqlite3 /usr/bin/python3:python3
seconds=${1:-5}
lines=${2:-10000}
cells=${3:-400000}
base=http://a.example
# Below the ports that the system gives to clients.
port=$((20000 + RANDOM % 12000))
server=
trap 'stop "$server"; rm -rf "$work"' EXIT
plain=(/usr/bin/python3 "$top/bench/plain.py")

# Writes over so many connections, each with a thread of its own, and prints what came of it.
writes() {
  local before
  writer "c$1" >"$work/write.lua"
  before=$(taken "$server")
  wrk -t "$1" -c "$1" -d "${seconds}s" -s "$work/write.lua" "http://127.0.0.1:$port" >"$work/wrk"
  awk -v n="$1" -v t="$(($(taken "$server") - before))" '
    /requests in/ { requests = $1 }
    /Requests\/sec/ { rate = $2 }
    /Non-2xx|Socket errors/ { print }
    END {
      printf "%d connections: %d acknowledged writes a second, ", n, rate
      printf "%.1f microseconds of a processor each\n", requests ? t / requests : 0
    }' "$work/wrk"
}

# What the shortest of three imports of the input uses, each into an empty store.
import_least() {
  local best=
  for _ in 1 2 3; do
    rm -f "$work"/import.db*
    begun=${EPOCHREALTIME/./}
    measure_used
    if [ -z "$best" ] || ((used < best)); then
      best=$used
      took=$((${EPOCHREALTIME/./} - begun))
    fi
  done
  used=$best
}

# Prints a figure of an import.
tell_import() {
  awk -v what="$1" -v t="$used" -v w="$took" -v n="$(wc -l <"$work/input")" 'BEGIN {
    printf "import %s: %.1f microseconds of a processor a line, %d lines a second\n",
      what, t / n, n * 1e6 / w
  }'
}

echo "processors: $(nproc)"
tell_disk

sentences "$lines" >"$work/input"
words=("$work/import.db" import)
import_least
tell_import 'into a file'
read -r commits each < <("${plain[@]}" commit "$work/import.db" "$work/plain.db")
echo "the same commits by SQLite: $each microseconds of a processor each, $commits a second"
words=(- import)
import_least
tell_import 'in memory'

beginning >"$work/input"
words=("$work/store.db" import)
measure
[ "$status" -eq 0 ]
serve "$work/store.db" "$port" 8
writes 1
writes 8
stop "$server"
server=
rm "$work/plain.db"
read -r commits each < <("${plain[@]}" commit "$work/store.db" "$work/plain.db")
echo "SQLite, the cells of these writes: $commits commits a second, $each microseconds of a" \
  'processor each'

sentences 1000 >"$work/input"
words=("$work/thousand.db" import)
limit=600
measure
[ "$status" -eq 0 ]
"${plain[@]}" many "$work/thousand.db" "$work/many.db" $(((cells - 4) / 2))
: >"$work/input"
words=("$work/many.db" import)
measure_used
count=$(sqlite3 "$work/many.db" 'SELECT count(*) FROM cell')
echo "opening of $count cells, $(($(stat -c %s "$work/many.db") >> 20)) MiB:" \
  "$((used / 1000)) ms of a processor"
grep -qx 'accepted 0 repeated 0 old 0' "$work/output"
TIMEFORMAT='%3U %3S'
spent=$({ time sqlite3 "$work/many.db" 'PRAGMA integrity_check' >"$work/checked"; } 2>&1)
echo "sqlite3's integrity check: $(awk '{ printf "%d", ($1 + $2) * 1000 }' <<<"$spent") ms of a" \
  "processor ($(<"$work/checked"))"
serve "$work/many.db" "$port" 8
echo "memory: at most $(memory "$server" VmHWM) KiB while it is opened," \
  "$(memory "$server" VmRSS) KiB when it is open"
