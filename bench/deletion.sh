#!/usr/bin/env bash
# deletion.sh [SMALL [LARGE]]: times the deletion of manifests of SMALL (10,000) and of LARGE
# (200,000) short annotations:
# - by lines of an import, which delete LARGE annotations in all, in memory and over a file:
#   microseconds of a processor an annotation, which is what the lines add to the import without
#   them, or to the opening of the file, the least of three runs each. Over a file it has to be at
#   most 25, and those that go LARGE at once may take at most half as much again an annotation as
#   those that go SMALL at once, which is what linear means here;
# - of one of them by a request to a server of the file: seconds until its reply, microseconds of a
#   processor an annotation, and for how long a read and a write over other connections wait
#   meanwhile at most, beside how long they wait at most before it.
# It ends with 0 where no bound is passed. The file stands in TMPDIR. It takes about three minutes.
# Installs by apt-get, where it isn't there: python3.
set -eu
. "$(dirname "$0")/measure.sh"
. "$(dirname "$0")/sockets.sh"
need /usr/bin/python3:python3
echo "processors: $(nproc)"
tell_disk
PYTHONPATH=$top/tests /usr/bin/python3 -B "$top/bench/deletion.py" "$program" "$work" \
  "${1:-10000}" "${2:-200000}"
