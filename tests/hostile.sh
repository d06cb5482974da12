#!/usr/bin/env bash
# hostile.sh [SECONDS [SEED]]: shows that a server under hostile clients goes on to answer others,
# rightly and within ten seconds each, or two behind nginx, and that its memory (VmHWM) stays under
# MEMORY_MIB, 128 where it isn't said. For SECONDS (20 where it isn't said) 200 connections at once
# send random bytes, heads without end, bodies cut short, prefaces of HTTP/2, hellos of TLS and
# resets, beside 32 silent ones at 64 workers. Then for as long 2,000 connections to nginx before
# the server send half a request, and are silent or send a byte a second: nginx is set up with
# connections to the server that are kept, `client_max_body_size 1m` and timeouts. A silent client
# that comes past a proxy holds a worker for 30 seconds, so as many as there are workers hold up
# others; that is no part of this. Installs by apt-get, where they aren't there: nginx-light,
# python3.
set -eu
. "$(dirname "$0")/program.sh"
need nginx:nginx-light /usr/bin/python3:python3
ulimit -n 16384 2>/dev/null || true
/usr/bin/python3 "$top/tests/hostile.py" "$program" "$work" "${2:-$RANDOM}" "${1:-20}"
