#!/usr/bin/env bash
# Drives the page examples/viewer/index.html in headless Chromium against a served reading room, by
# a file and from another origin: what an anonymous reader and a member of a closed group find, on
# one manifest and on all, a note that is written, found, changed and deleted, comments whose words
# stand where they stood, or elsewhere, or nowhere, hostile texts, refusals, the keyboard alone, a
# phone's width, and the dark.
# It keeps a picture of each step in a folder, which may be given, and which its first line names.
# ANNO is the program, by default the built one. It is no part of the gate. Ends with 0 where all is
# as it is due.
set -eu
top=$(cd "$(dirname "$0")/.." && pwd)
if [ -z "${ANNO-}" ]; then
  "$top/build"
  ANNO=$top/crates/anno/out/anno
fi
for tool in chromium:chromium chromedriver:chromium-driver; do
  if ! command -v "${tool%%:*}" >/dev/null; then
    apt-get update -qq
    apt-get install -y -qq "${tool##*:}"
  fi
done >/dev/null 2>&1
pictures=${1:-$(mktemp -d)}
mkdir -p "$pictures"
echo "pictures: $pictures"
work=$(mktemp -d)
port=$((20000 + RANDOM % 10000))
at=http://127.0.0.1:$port
lines=$top/examples/reading-room/lines
"$ANNO" "$work/room.db" import <"$lines" >/dev/null
# Comments name annotations by the server's IRIs, which begin with its address.
sed "s|{base}|$at|g" "$top/tests/viewer.lines" | "$ANNO" "$work/room.db" import >/dev/null
# A browser keeps up to six connections, and each of them has a worker for as long.
"$ANNO" "$work/room.db" serve "$at" 20 "$port" 64 0 2>/dev/null &
server=$!
# The page comes from a server of its own, which is another origin.
python3 -m http.server --bind 127.0.0.1 --directory "$top/examples/viewer" $((port + 1)) \
  >/dev/null 2>&1 &
origin=$!
trap 'kill "$server" "$origin" 2>/dev/null || true; rm -rf "$work"' EXIT
for each in "$port" $((port + 1)); do
  until (exec 3<>"/dev/tcp/127.0.0.1/$each") 2>/dev/null; do sleep 0.1; done
done
python3 -B "$top/tests/viewer.py" "$top/examples/viewer/index.html" \
  "http://127.0.0.1:$((port + 1))/" "$at" "$lines" "$pictures" $((port + 2))
