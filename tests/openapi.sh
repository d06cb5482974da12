#!/usr/bin/env bash
# Holds docs/openapi.json, the description of the routes, against the tables of routes, parameters,
# codes and statuses in the sources, against each reply that is due in the cases of `find` and
# `session`, and against the replies of a served reading room (examples/reading-room/start), reads
# and writes. A library says whether it is an OpenAPI description at all: `openapi-spec-validator`
# of PyPI, which is installed into a folder of the test where it isn't there. ANNO names the program,
# by default the built one; with ANNO=none no room is served. It is no part of the gate. Ends with 0
# where all is as it is due.
set -eu
if [ "${ANNO-}" = none ]; then
  top=$(cd "$(dirname "$0")/.." && pwd)
  work=$(mktemp -d)
else
  . "$(dirname "$0")/program.sh"
fi
start=
trap '[ -z "$start" ] || kill "$start" 2>/dev/null; rm -rf "$work"' EXIT
python=python3
if ! "$python" -c 'import jsonschema, openapi_spec_validator' 2>/dev/null; then
  "$python" -m venv "$work/venv"
  "$work/venv/bin/pip" --quiet install openapi-spec-validator
  python=$work/venv/bin/python
fi
if [ "${ANNO-}" = none ]; then
  "$python" -B "$top/tests/openapi.py" "$top"
  exit
fi
# Below the ports that the system gives to clients.
port=$((20000 + RANDOM % 12000))
ANNO=$program "$top/examples/reading-room/start" "$work/room.db" "$port" >"$work/printed" 2>&1 &
start=$!
await "$port"
"$python" -B "$top/tests/openapi.py" "$top" "http://127.0.0.1:$port"
