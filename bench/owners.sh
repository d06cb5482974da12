#!/usr/bin/env bash
# owners.sh [ANNOTATIONS]: what searches, completions and the stream cost where many own what all may
# read, at served stores of ANNOTATIONS (200,000) on one manifest of 3, 1,000 and 19,000 owners, and
# of 1,000 others' private ones which have the same words. It asks over loopback, with nothing else
# asked, and prints the microseconds of a processor that a request takes, with its page, beside the
# bound:
# - a word that nine in ten have: 2 milliseconds; two words: 300 microseconds;
# - a completion of three letters: 30 microseconds;
# - the last page of the stream: 25 microseconds, and 20 of one of a twentieth; all of its pages of
#   a hundred changes one after the other: 0.2 seconds;
# - the memory of the server with the most owners: 1.05 times that with three.
# Each is the least of three rounds, and each reply is compared. It ends with 0 where no bound is
# passed. The stores stand in TMPDIR. It takes about four minutes.
# Installs by apt-get, where it isn't there: python3.
set -eu
. "$(dirname "$0")/measure.sh"
. "$(dirname "$0")/sockets.sh"
need /usr/bin/python3:python3
echo "processors: $(nproc)"
PYTHONPATH=$top/tests /usr/bin/python3 -B "$top/bench/owners.py" "$program" "$work" "${1:-200000}"
