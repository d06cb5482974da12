#!/usr/bin/env bash
# serve.sh [SECONDS [ANNOTATIONS [THREADS]]]: times a server of a store on a file over loopback, for
# SECONDS (4) a row, with ANNOTATIONS (100,000) of 32 words in it, and nginx beside it, which serves
# files of the same bytes in the same minutes, each asked by THREADS (1) threads, or by as many as
# there are connections where these are fewer:
# - an annotation, a manifest of 900 canvases, and a search page of ten, each over 1, 8 and 64
#   connections that are kept: requests a second, and microseconds of a processor a request;
# - the same over 8 with a writer at full speed beside: what is left of the requests a second, and
#   the time of the slowest percent;
# - a PUT over one connection to a new store, beside one at a desk with another, which `session`
#   serves over standard input and output: microseconds of a processor each;
# - the memory of the server, beside that of the process of the import.
# The store stands in TMPDIR; its import waits for the disk once a line, so a slow disk takes long.
# Asks by wrk, of which a thread takes a processor of its own. Installs by apt-get, where they
# aren't there: wrk, nginx-light, curl.
set -eu
. "$(dirname "$0")/measure.sh"
. "$(dirname "$0")/inputs.sh"
. "$(dirname "$0")/sockets.sh"
need wrk:wrk nginx:nginx-light curl:curl
seconds=${1:-4}
annotations=${2:-100000}
threads=${3:-1}
base=http://a.example
# Below the ports that the system gives to clients.
port=$((20000 + RANDOM % 12000))
files=$((port + 1))
server=
nginx=
trap 'stop "$server"; stop "$nginx"; rm -rf "$work"' EXIT

# A manifest of 900 canvases, and ten annotations on another one.
shown() {
  book
  beginning | tail -n 1 | sed 's#/manifests/m1#/manifests/m2#; s/T10:00/T10:02/'
  sentences 10 | tail -n +3 | sed 's#/mara/n#/mara/t#; s/manifest=m1/manifest=m2/; s/T10:01/T10:02/'
}

# What each request of a run of wrk takes of so many microseconds.
each() { awk -v t="$1" '/requests in/ { printf "%.1f", $1 ? t / $1 : 0 }' "$2"; }

# Asks for a path over so many connections, and sets `rate`, `cost` and `slowest`: requests a
# second, microseconds of a processor of this process each, and the time of the slowest percent.
ask() {
  local process=$1 url=$2 before
  before=$(taken "$process")
  wrk -t $(($3 < threads ? $3 : threads)) -c "$3" -d "${seconds}s" --latency "$url" >"$work/wrk"
  rate=$(awk '/Requests\/sec/ { printf "%d", $2 }' "$work/wrk")
  slowest=$(awk '$1 == "99%" { print $2 }' "$work/wrk")
  cost=$(each "$(($(taken "$process") - before))" "$work/wrk")
  grep 'Non-2xx\|Socket errors' "$work/wrk" || true
}

# One writer at full speed, for so many seconds, which makes annotations of which none is there yet.
write() {
  writer "$1" >"$work/write.lua"
  wrk -t 1 -c 1 -d "$2s" -s "$work/write.lua" "http://127.0.0.1:$port" >"$work/written"
}

echo "processors: $(nproc)"
tell_disk
{ sentences "$annotations"; shown; } >"$work/input"
words=("$work/store.db" import)
limit=7200
measure
[ "$status" -eq 0 ]
echo "import of $(wc -l <"$work/input") lines: $(<"$work/output"), peak of memory $peak KiB"
begun=${EPOCHREALTIME/./}
serve "$work/store.db" "$port" 64
took=$(((${EPOCHREALTIME/./} - begun) / 1000))
echo "served behind $took ms: $(memory "$server" VmRSS) KiB of memory," \
  "peak $(memory "$server" VmHWM) KiB"

mkdir "$work/files"
cat >"$work/nginx.conf" <<CONF
worker_processes auto;
daemon off;
error_log stderr crit;
pid $work/nginx.pid;
events { worker_connections 256; }
http {
  access_log off;
  default_type application/json;
  keepalive_requests 1000;
  sendfile on;
  server { listen 127.0.0.1:$files; root $work/files; }
}
CONF
chmod 755 "$work" "$work/files"
nginx -p "$work" -c "$work/nginx.conf" 2>/dev/null &
nginx=$!
await "$files"

declare -A paths=([annotation]=/annotations/mara/n7 [manifest]=/manifests/book)
paths[search]='/search/m2?q=heron'
columns='%-11s %11s %8s %12s %11s %10s\n'
printf "$columns" asked connections program requests/s us/request 'slowest 1%'
row() { printf "$columns" "$what" "$connections" "$1" "$rate" "$cost" "$slowest"; }
for what in annotation manifest search; do
  url=http://127.0.0.1:$port${paths[$what]}
  curl --silent --fail "$url" >"$work/files/$what"
  for connections in 1 8 64; do
    ask "$server" "$url" "$connections"
    row anno
    ask "$nginx" "http://127.0.0.1:$files/$what" "$connections"
    row nginx
  done
  echo "  of $(stat -c %s "$work/files/$what") bytes"
done

echo 'with a writer at full speed beside:'
for what in annotation manifest search; do
  connections=8
  write "$what" $((seconds + 2)) &
  writer=$!
  sleep 1
  ask "$server" "http://127.0.0.1:$port${paths[$what]}" "$connections"
  wait "$writer"
  row anno
  echo "  and $(awk '/Requests\/sec/ { printf "%d", $2 }' "$work/written") writes a second"
done

# The desk has a new store, so the server of the writes has one too.
stop "$server"
beginning | "$program" "$work/put.db" import >/dev/null
serve "$work/put.db" "$port" 8
before=$(taken "$server")
write put "$seconds"
put=$(each "$(($(taken "$server") - before))" "$work/written")
stop "$server"
server=
# So many of the same writes at a desk, over one connection to a new store. Sets `least`, the fewest
# microseconds of three runs.
desk() {
  awk -v count="$1" 'BEGIN {
    text = "{\"body\":{\"type\":\"TextualBody\",\"value\":\""
    for (k = 0; k < 8; k++) text = text "heron swan gull tern "
    text = text "\"},\"target\":\"http://a.example/c1\",\"type\":\"Annotation\"}"
    for (i = 1; i <= count; i++)
      printf "PUT /annotations/mara/desk%d?version=1&manifest=m1 HTTP/1.1\r\n" \
        "Authorization: Bearer tok-mara\r\nContent-Length: %d\r\n\r\n%s", i, length(text), text
  }' >"$work/input"
  words=("$work/desk.db" session "$base" 10)
  least=
  for _ in 1 2 3; do
    rm -f "$work"/desk.db*
    beginning | "$program" "$work/desk.db" import >/dev/null
    measure_used
    if [ -z "$least" ] || ((used < least)); then least=$used; fi
  done
}
desk 0
alone=$least
desk 1000
at_desk=$(awk -v t="$((least - alone))" 'BEGIN { printf "%.1f", t / 1000 }')
made=$(grep -ao 'HTTP/1.1 201' "$work/output" | wc -l)
echo "a PUT: $put microseconds of a processor over a connection, $at_desk at a desk" \
  "($made of 1000 were made)"
