#!/usr/bin/env bash
# Runs the commands of docs/GUIDE.md in an empty folder, in order, and compares what they print with
# what the guide shows; tests/guide.py says how a block is marked, and how what differs each time is
# masked. The guide's servers and proxies are started and stopped by its own commands. Their ports,
# 8080, 8081 and 8443, are others here, `anno` is the built program, or the one that ANNO names, and
# `anno-harvest`, `backup_store` and `check_store` are those of tools/. What the guide needs is
# installed. It is no part of the gate. Ends with 0 where all is printed as it is shown.
set -eu
top=$(cd "$(dirname "$0")/.." && pwd)
if [ -z "${ANNO-}" ]; then
  "$top/build"
  ANNO=$top/crates/anno/out/anno
fi
# The commands that the guide uses, and the package of each.
tools='curl:curl jq:jq sqlite3:sqlite3 nginx:nginx-light openssl:openssl systemd-analyze:systemd'
for tool in $tools; do
  if ! command -v "${tool%%:*}" >/dev/null; then
    apt-get update -qq
    # At run level 1 a package starts no service.
    RUNLEVEL=1 apt-get install -y -qq --no-install-recommends "${tool##*:}"
  fi
done >/dev/null 2>&1
work=$(mktemp -d)
trap 'rm -rf "$work"' EXIT
mkdir "$work/bin" "$work/empty"
ln -s "$(realpath "$ANNO")" "$work/bin/anno"
ln -s "$top/tools/harvest" "$work/bin/anno-harvest"
ln -s "$top/tools/backup_store" "$top/tools/check_store" "$work/bin/"
unset ANNO
port=$((20000 + RANDOM % 10000))
python3 -B "$top/tests/guide.py" "$top/docs/GUIDE.md" "$work/bin/anno" "$work/empty" $port
