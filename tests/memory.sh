#!/usr/bin/env bash
# memory.sh [STEP]: shows what comes of want of memory. First a server on loopback that is let take
# 16 MiB more than it begins with (the limit of `ulimit -v`) is written to until replies are 503
# `memory`: the process lives and answers, reads too, which are 503 where nothing at all is left,
# and standard error reports these replies; each acknowledged write is in the cells; and where the
# limit is taken away writes and reads go on. Then the eight requests of
# crates/an_cases/data/failing.cases are played over a file, by `session` and as lines by `import`,
# with each STEPth allocation of the process refused (each one where it isn't said, which takes
# some thousand runs), through a library that is preloaded: what was refused is sent again, is
# accepted or a repeat, and the cells at the end are those of a run without a refusal. An allocator
# that checks addresses, as in a quick run's program, takes no such library and no such limit.
# Installs by apt-get, where they aren't there: sqlite3, python3, gcc and libc6-dev.
set -eu
# What is shown is of no disk.
if [ -w /dev/shm ]; then export TMPDIR=/dev/shm; fi
. "$(dirname "$0")/program.sh"
need sqlite3:sqlite3 /usr/bin/python3:python3 prlimit:util-linux cc:gcc
[ -e /usr/include/stdlib.h ] || install libc6-dev
cc -shared -fPIC -O1 -Wall -Wextra -o "$work/refuse.so" "$top/tests/refuse.c"
status=0
/usr/bin/python3 "$top/tests/memory.py" "$program" "$work" || status=1
/usr/bin/python3 "$top/tests/refuse.py" "$program" "$work" "$work/refuse.so" "${1:-1}" || status=1
exit "$status"
