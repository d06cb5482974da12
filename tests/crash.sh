#!/usr/bin/env bash
# crash.sh [COUNT [SEED]]: shows what a store on a file is behind a crash of the program. `serve`
# and `import` are killed by signal 9 at COUNT random moments (200 where it isn't said), while four
# clients write. Behind each kill Debian's sqlite3 has to find a copy of file and log sound; the
# cells have to have all that was acknowledged, and of a write without a reply all or nothing; then
# the store is opened again, and that write is sent again. At the end the cells have to be those of
# one import of all acknowledged writes. Then: kills while a store of the first format is turned into
# today's, which leave the cells of one of the two; a full disk (a small tmpfs, where mounting is
# allowed), two processes at one file, and paths that are no store. It is the process that crashes
# here, and not the machine. Installs by apt-get, where they aren't there: sqlite3, python3.
set -eu
. "$(dirname "$0")/program.sh"
need sqlite3:sqlite3 /usr/bin/python3:python3 setpriv:util-linux
count=${1:-200}
seed=${2:-$((RANDOM * 32768 + RANDOM))}
status=0
/usr/bin/python3 "$top/tests/crash.py" "$program" "$work" "$count" "$seed" || status=1
/usr/bin/python3 "$top/tests/turned.py" "$program" "$work" "$count" "$seed" || status=1
/usr/bin/python3 "$top/tests/files.py" "$program" "$work" || status=1
exit "$status"
