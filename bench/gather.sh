#!/usr/bin/env bash
# gather.sh [ANNOTATIONS [MANIFESTS]]: what a search in all manifests costs, at a served store of
# ANNOTATIONS (200,000) on MANIFESTS (10,000), and of 1,000 other owners' private ones which have
# the same words. It asks over loopback, with nothing else asked, and prints the microseconds of a
# processor that a request takes, with its page, beside the bound:
# - a word that five annotations have: 100 microseconds; that 1,000 have: 300; that half of all
#   have: 4 milliseconds;
# - a completion of three letters: 1 millisecond;
# - a search in one of the manifests, which is named: a third more than the plain search there;
# - the collection of all manifests: 10 milliseconds.
# Each is the least of three rounds, and each reply is compared. Then it prints what the import
# took, and the memory of the server; where BEFORE=PATH names an earlier program, both may be 1.2
# times those of that. Beside the searches stand those of SQLite's FTS5 over the same texts, with
# the audience of each in columns, where Python's SQLite has it. It ends with 0 where no bound is
# passed. The store stands in TMPDIR. It takes about two minutes.
# Installs by apt-get, where it isn't there: python3.
set -eu
. "$(dirname "$0")/measure.sh"
. "$(dirname "$0")/sockets.sh"
need /usr/bin/python3:python3
echo "processors: $(nproc)"
PYTHONPATH=$top/tests /usr/bin/python3 -B "$top/bench/gather.py" "$program" "$work" \
  "${1:-200000}" "${2:-10000}" "${BEFORE:-}"
