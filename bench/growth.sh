#!/usr/bin/env bash
# growth.sh [PART]: shows what memory keeps of what is gone. Of PART, whole by default, which divides
# all numbers, these are written to a store on a file, by an import and by a server:
# - 100,000 updates of one annotation, each by three words that never were before;
# - 20 updates of one annotation, each by 100,000 new words, of which one may take 0.3 seconds, by
#   the middle of the 20 at a server;
# - 10,000 annotations that are made by new words and deleted, ten times.
# The peak of the import, and the memory of the server (VmRSS) at the end, stand beside those of the
# same store opened anew, of which they may be at most 1.3 times. Then one annotation is updated by
# the same words: what 80,000 such changes more add, of which one may have at most 450 bytes at a
# server and at an import. It ends with 0 where no bound is passed. The store stands in TMPDIR. It
# takes about two minutes. Installs by apt-get, where it isn't there: python3.
set -eu
. "$(dirname "$0")/measure.sh"
. "$(dirname "$0")/sockets.sh"
need /usr/bin/python3:python3
echo "processors: $(nproc)"
tell_disk
PYTHONPATH=$top/tests /usr/bin/python3 -B "$top/bench/growth.py" "$program" "$work" "${1:-1}"
