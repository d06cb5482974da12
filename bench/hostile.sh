#!/usr/bin/env bash
# hostile.sh [ANNOTATIONS]: asks a served store of ANNOTATIONS (200,000) on one manifest for what
# costs most that a head of 16,384 bytes can say: pieces, words, names and fields again and again,
# among lists in which nearly all annotations stand, and beside annotations of 1 MiB. It prints, for
# each request, the bytes of its head, its status, the milliseconds until its reply has come, those
# of the plain request, which has only the first word of it, and the bound: three times the plain
# request, or 30 milliseconds. Both are the least of several over loopback, with nothing else asked.
# It ends with 0 where none is over its bound. The store stands in TMPDIR. It takes about a minute.
# Installs by apt-get, where it isn't there: python3.
set -eu
. "$(dirname "$0")/measure.sh"
. "$(dirname "$0")/sockets.sh"
need /usr/bin/python3:python3
echo "processors: $(nproc)"
PYTHONPATH=$top/tests /usr/bin/python3 -B "$top/bench/hostile.py" "$program" "$work" \
  "${1:-200000}"
