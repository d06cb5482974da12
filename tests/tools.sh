#!/usr/bin/env bash
# Tries tools/backup_store and tools/check_store over real files. A copy has both files as they
# were, also of a server that was killed. A store that is served is neither copied nor replaced, and
# no program opens a store while it is copied. A copy that was changed isn't put back, and a restore
# that is cut off at any step leaves nothing that is served by half. A check passes stores that are
# well, and no other, and changes none. Installs by apt-get, where they aren't there: sqlite3, curl,
# python3. ANNO names the program, by default the built one. Ends with 0 where all is as it is due.
set -eu
. "$(dirname "$0")/program.sh"
need sqlite3:sqlite3 curl:curl /usr/bin/python3:python3 setpriv:util-linux
set +e
export ANNO=$program
tools=$top/tools
# Below the ports that the system gives to clients.
port=$((20000 + RANDOM % 12000))
at=http://127.0.0.1:$port
server=
asked=0
wrong=0
trap '[ -z "$server" ] || kill -9 "$server" 2>/dev/null; rm -rf "$work"' EXIT
cd "$work" || exit 1

# Compares a text that was found to one that is due.
due() {
  asked=$((asked + 1))
  if [ "$2" != "$3" ]; then
    wrong=$((wrong + 1))
    printf 'wrong: %s\n  found %s\n  due   %s\n' "$1" "$2" "$3"
  fi
}

# The bytes of a store's file and log, as sums.
sums() { cat "$1" "$1-wal" 2>/dev/null | sha256sum; }

# A copy of both files, and what the program exports of it for two readers.
exports() {
  rm -rf beside
  mkdir beside
  cp "$1" "$1-wal" beside/ 2>/dev/null
  "$program" "beside/$(basename "$1")" export - | sha256sum
  "$program" "beside/$(basename "$1")" export tomas | sha256sum
}

# Runs a tool, and prints its output and its status on one line.
run() {
  local status=0
  "$tools/$1" "${@:2}" >printed 2>&1 || status=$?
  echo "$(tr '\n' '|' <printed | sed "s|$work/||g") $status"
}

serve() {
  "$program" "$1" serve "$at" 20 "$port" 4 0 2>server.log &
  server=$!
  await "$port"
}

# Ends the server by a signal.
end_server() {
  kill "-$1" "$server"
  wait "$server" 2>/dev/null
  server=
}

put() {
  printf '{"type":"Annotation","target":"https://a.example/1","bodyValue":"heron %s"}' "$1" |
    curl -s -o reply -w '%{http_code}' -X PUT -H 'Authorization: Bearer tok-tomas-room' \
      --data-binary @- "$at/annotations/tomas/more-$1?version=1&manifest=log"
}

"$program" room.db import <"$top/examples/reading-room/lines" >/dev/null

# ---- a check

before=$(sums room.db)
well='sqlite3: sound; readers 3 (0 deleted), manifests 2 (0 deleted), annotations 300 (0 deleted)'
copied="copied: room.db, $(stat -c %s room.db) bytes, and its log of $(stat -c %s room.db-wal)"
due 'a check of the reading room' "$(run check_store room.db)" "$copied|$well, changes 302|opened:\
 everybody sees manifests 2, annotations 292|closed: sound, the same cells|room.db is well| 0"
due 'a check changes nothing' "$(sums room.db)" "$before"
cp room.db gone.db
cp room.db-wal gone.db-wal
"$program" gone.db import >/dev/null <<'LINES'
2025-01-01T00:00:00Z tomas DELETE /annotations/tomas/p01-line1?version=2
2025-01-01T00:00:01Z - DELETE /readers/leila?version=2
2025-01-01T00:00:02Z - DELETE /manifests/map?version=2
LINES
run check_store gone.db >/dev/null
due 'what is deleted is counted' "$(sed -n 2,3p printed)" 'sqlite3: sound; readers 3 (1 deleted),'\
' manifests 2 (1 deleted), annotations 300 (39 deleted), changes 342
opened: everybody sees manifests 1, annotations 254'

# A copy of the room that a statement of SQL has changed, and what the check says of it last.
after_sql() {
  cp room.db changed.db
  sqlite3 changed.db "$1" >/dev/null
  run check_store changed.db >/dev/null
  sed -n 's/.*\(WRONG: opened.*\)/\1/p' printed
  tail -n 1 printed
}

due 'a row that is gone' "$(after_sql 'DELETE FROM cell WHERE tab = 2 AND key = 0')" \
  'WRONG: opened: the program ends with 7: store damaged: table 2 key 1
changed.db is NOT well'
due 'a row that is none' "$(after_sql "UPDATE cell SET val = x'78' WHERE tab = 3 AND key = 7")" \
  'WRONG: opened: the program ends with 7: store damaged: table 3 key 7
changed.db is NOT well'
due 'a database of something else' "$(after_sql 'DROP TABLE cell; CREATE TABLE other (a)')" \
  'changed.db is NOT well'
cp room.db torn.db
head -c 4096 /dev/urandom | dd of=torn.db bs=4096 seek=20 conv=notrunc status=none
run check_store torn.db >/dev/null
due 'a page of other bytes' "$(tail -n 1 printed)" 'torn.db is NOT well'
echo text >text.db
run check_store text.db >/dev/null
due 'a text' "$(tail -n 1 printed)" 'text.db is NOT well'
: >empty.db
run check_store empty.db >/dev/null
due 'an empty file' "$(tail -n 1 printed)" 'empty.db is NOT well'
due 'no file' "$(run check_store none.db)" 'backup_store: none.db: No such file or directory| 2'
due 'no file is made' "$(ls none.db* 2>&1 | wc -l)" 1

# A check with programs that show too little, or leave other cells.
printf '#!/bin/sh\n"%s" "$@" | head -n -1\n' "$program" >shows-less
printf '#!/bin/sh\n"%s" "$@"\nsqlite3 "$1" "DELETE FROM cell WHERE tab = 4"\n' "$program" \
  >leaves-less
chmod +x shows-less leaves-less
ANNO=$work/shows-less run check_store room.db >/dev/null
due 'a program that shows too little' "$(grep WRONG printed)" 'WRONG: opened: everybody sees'\
' manifests 2, annotations 291, and by the cells it is manifests 2, annotations 292'
ANNO=$work/leaves-less run check_store room.db >/dev/null
due 'a program that leaves other cells' "$(grep WRONG printed)" \
  'WRONG: closed: the cells are others than before'
due 'no program' "$(ANNO=$work/none run check_store room.db)" \
  "check_store: none isn't there: name the program by ANNO| 2"
due 'no words' "$(run check_store)" 'check_store: the words are STORE| 2'

# ---- a copy

due 'a copy' "$(run backup_store room.db first)" "$copied| 0"
due 'the copy is the file' "$(cmp room.db first/room.db && cmp room.db-wal first/room.db-wal)$?" 0
due 'the sums of a copy' "$(cd first && sha256sum -c --status sums)$?" 0
due 'nobody else may read it' "$(stat -c %a first first/room.db first/room.db-wal | tr '\n' ' ')" \
  '700 600 600 '
due 'a folder that is there' "$(run backup_store room.db first)" \
  'backup_store: first is there already| 1'
due 'a copy of no file' "$(run backup_store none.db second)" \
  'backup_store: none.db: No such file or directory| 1'
due 'a folder in no folder' "$(run backup_store room.db none/second | cut -d ' ' -f 1)" \
  'backup_store:'
due 'no word' "$(run backup_store room.db | tail -c 2)" 2
due 'nothing is left of what failed' "$(ls -d second* none* 2>&1 | grep -vc 'No such')" 0
: >room.db-journal
due 'a journal of another program' "$(run backup_store room.db second)" \
  'backup_store: room.db-journal is there: another program has written the store| 1'
rm room.db-journal
if [ "$(id -u)" -eq 0 ]; then
  mkdir -m 777 others
  chmod 755 . && chmod 644 room.db room.db-wal
  cp "$tools/backup_store" others/tool
  due 'by who may only read' "$(setpriv --reuid=65534 --regid=65534 --clear-groups \
    /usr/bin/python3 others/tool room.db others/copy)" "$copied"
fi

# While a store is copied, it has the lock that the program wants.
cat >held.py <<'PYTHON'
import runpy, subprocess, sys
tool, program, store = sys.argv[1:]
with runpy.run_path(tool)["locked"](store):
    done = subprocess.run([program, store, "export", "-"], stdout=subprocess.PIPE)
    print(done.returncode, done.stdout.decode().strip())
PYTHON
due 'no program opens what is copied' \
  "$(/usr/bin/python3 -B held.py "$tools/backup_store" "$program" room.db)" '4 keeper failed'

# ---- while it is served, and after a crash

serve room.db
before=$(sums room.db)
due 'no copy of what is served' "$(run backup_store room.db second)" 'backup_store: room.db is in'\
' use: stop its server, or copy a snapshot of the file system| 1'
due 'no check of what is served' "$(run check_store room.db | tail -c 2)" 2
due 'nothing is put over what is served' "$(run backup_store --restore first room.db | tail -c 2)" 1
due 'what is served is as it was' "$(sums room.db)" "$before"
due 'the server goes on' "$(put 1)$(put 2)$(put 3)" 201201201
end_server 9
due 'the last writes are in the log' "$([ "$(stat -c %s room.db-wal)" -gt 4096 ] && echo yes)" yes
before=$(exports room.db)
due 'a copy after a crash' "$(run backup_store room.db crashed | tail -c 2)" 0
due 'a check of it' "$(run check_store crashed/room.db | tail -c 19)" 'room.db is well| 0'
due 'the check leaves it' "$(cd crashed && sha256sum -c --status sums)$?" 0

# ---- putting back

due 'to another place' "$(run backup_store --restore crashed other.db)" 'restored: other.db| 0'
due 'it has what was written' "$(exports other.db)" "$before"
due 'only the two files are there' "$(echo other.db*)" 'other.db other.db-wal'
cp -r crashed changed
printf x | dd of=changed/room.db bs=1 seek=9000 conv=notrunc status=none
due 'a copy that was changed' "$(run backup_store --restore changed room.db)" \
  "backup_store: changed/room.db isn't what was copied: its sum is another| 1"
due 'a folder without sums' "$(run backup_store --restore others room.db | tail -c 2)" 1
due 'nothing has changed' "$(exports room.db) $(echo room.db*)" "$before room.db room.db-wal"
old=$(exports first/room.db)
kept=$(run backup_store --restore first room.db | sed -n 's/.* is \(room.db.[0-9TZ]*\)| 0/\1/p')
due 'over what was there' "$(exports room.db)" "$old"
due 'what was there is kept' "$(exports "$kept")" "$before"
serve room.db
due 'what was put back is served' "$(put 1)" 201
end_server TERM

# A restore that ends before the Nth change of a name.
cat >cut_off.py <<'PYTHON'
import os, runpy, sys
left = int(sys.argv.pop(1))
def counted(call):
    def instead(*words):
        global left
        left -= 1
        if left == 0:
            os._exit(9)
        return call(*words)
    return instead
for name in ("link", "replace", "rename", "remove"):
    setattr(os, name, counted(getattr(os, name)))
sys.argv.pop(0)
runpy.run_path(sys.argv[0], run_name="__main__")
PYTHON
before=$(exports other.db)
cuts=0
status=9
while [ "$status" -eq 9 ] && [ "$cuts" -lt 20 ]; do
  cuts=$((cuts + 1))
  rm -rf cut
  mkdir cut
  cp other.db cut/room.db
  cp other.db-wal cut/room.db-wal
  /usr/bin/python3 -B cut_off.py "$cuts" "$tools/backup_store" --restore first cut/room.db \
    >printed 2>&1
  status=$?
  "$program" cut/room.db export - >lines
  case "$?:$(tail -n 1 lines)" in
  4:keeper\ failed) found=refused ;;
  *)
    case "$(exports cut/room.db)" in
    "$before") found=before ;;
    "$old") found=after ;;
    *) found=half ;;
    esac
    ;;
  esac
  case "$cuts:$found" in [12]:before | [3-6]:refused | 7:after) found=due ;; esac
  due "a restore that ends before step $cuts" "$found" due
  run backup_store --restore first cut/room.db >/dev/null
  due "it is run once more after step $cuts" "$(exports cut/room.db)" "$old"
done
due 'the steps of a restore' "$cuts" 7

echo "$asked asked, $wrong wrong"
[ "$wrong" -eq 0 ]
