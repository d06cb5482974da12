#!/usr/bin/env bash
# deep.sh [--quick]: shows that no input takes a stack that grows with it, nor seconds that grow
# with its square. The program runs under `ulimit -s 1024`, or another number of KiB that STACK_KIB
# says. That is the stack of its first thread, and of each worker too: the C library gives a thread
# the soft limit, 2 MiB where there is none, and 16 KiB at least; the first row says what a worker
# is found to have. A manifest with 1,000,
# 20,000, 200,000 and 400,000 annotations on it is deleted in a store on a file, by a line of an
# import and by a request, while a reader on another connection has to be answered all the while;
# then the store is opened again and has to be as it is due, and SQLite has to find it sound. Then
# there are a line of 256 MiB in several forms, 400,000 lines that are repeats and that are empty,
# a reader in 64 groups, the deepest trees on each of 64 workers at once, and texts and queries of
# 1 MiB without a space, of letters and of what cuts words hardest. Each has its due status, at most
# SECONDS_MOST (600 where it isn't said) and at most MEMORY_MIB (12,288), after which it is ended. It
# takes about five minutes and 1 GB in TMPDIR; with --quick, of 1,000 and 20,000 annotations, 20,000
# lines and a line of 16 MiB, half a minute. Installs by apt-get, where they aren't there: sqlite3,
# python3.
set -eu
. "$(dirname "$0")/program.sh"
need sqlite3:sqlite3 /usr/bin/python3:python3
ulimit -s "${STACK_KIB:-1024}"
/usr/bin/python3 "$top/tests/deep.py" "$program" "$work" "$@"
