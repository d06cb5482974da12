#!/usr/bin/env bash
# anchors.sh [COMMENTS [PLACES]]: asks a served store for comments and orphans, over loopback with
# nothing else asked, and prints what is measured beside its bound:
# - a comment whose quote of one letter has PLACES (100,000) places in a text of 1 MiB, with a
#   position: at most 50 milliseconds;
# - each page of 100 of the tenth part of COMMENTS (10,000) on one annotation: at most 20;
# - the orphans of a manifest with COMMENTS comments, of which half are lost, on one annotation, and
#   on a thousand in turn: at most 50.
# Each is the least of five. Then it asks for a page of 100 comments that quote this letter without
# a position. It may take its time, but has to be answered, while another connection's reads are,
# and the server may keep 1.3 times the memory that it had before. It asks for the same once more on
# a text that is all this letter, where the server has 256 MiB more of address space than it has
# taken (as by `ulimit -v`), and may answer 503 too. It ends with 0 where all is as it is due. The
# store stands in TMPDIR. It takes about a minute, and some 2 GB of memory for the first such page.
# Installs by apt-get, where it isn't there: python3.
set -eu
. "$(dirname "$0")/measure.sh"
. "$(dirname "$0")/sockets.sh"
need /usr/bin/python3:python3
echo "processors: $(nproc)"
PYTHONPATH=$top/tests /usr/bin/python3 -B "$top/bench/anchors.py" "$program" "$work" \
  "${1:-10000}" "${2:-100000}"
