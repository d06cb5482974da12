#!/usr/bin/env bash
# harvest.sh: shows what tools/harvest keeps. The texts of examples/reading-room are served, and
# harvested by each caller; things are written, changed, deleted, hidden and shown, and harvested
# from what is known. Each time what is known has to be what the same caller gets by an export of a
# copy of the store, and what is printed the difference between two exports. Then a table of bodies
# and replies that no server should send: each has its named refusal, and the file of what is known
# stays as it was, to the byte. Installs by apt-get, where they aren't there: openssl, python3.
set -eu
. "$(dirname "$0")/program.sh"
need openssl:openssl /usr/bin/python3:python3
status=0
/usr/bin/python3 "$top/tests/harvest.py" "$program" "$work" || status=1
/usr/bin/python3 "$top/tests/harvest_replies.py" "$work" || status=1
exit "$status"
