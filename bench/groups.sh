#!/usr/bin/env bash
# groups.sh [CELLS [NOTES]]: shows what several groups of an annotation cost.
# - A search for a word that five of NOTES (100,000) annotations have, by a caller in 64 groups, where
#   the annotations have 1,000 audiences of eight groups: beside the same where all are public it may
#   take 100 microseconds more.
# - The opening of a store of CELLS (400,000) cells in the first format, which turns them into today's:
#   it may take 1.5 times an opening of the same store once it is turned, and twice its memory.
# It ends with 0 where no bound is passed. The stores stand in TMPDIR. It takes about two minutes.
# Installs by apt-get, where it isn't there: python3.
set -eu
. "$(dirname "$0")/measure.sh"
. "$(dirname "$0")/sockets.sh"
need /usr/bin/python3:python3
echo "processors: $(nproc)"
tell_disk
PYTHONPATH=$top/tests /usr/bin/python3 -B "$top/bench/groups.py" "$program" "$work" "${1:-400000}" "${2:-100000}"
