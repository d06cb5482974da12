# Sourced by the benchmarks: builds the program `anno`, or the one that `tool` names, and measures
# its runs. ANNO names another program to run in place of `anno`.
top=$(cd "$(dirname "$0")/.." && pwd)
tool=${tool:-anno}
program=${ANNO:-}
if [ -z "$program" ] || [ "$tool" != anno ]; then
  "$top/build" "$tool"
  program=$top/crates/$tool/out/$tool
fi
work=$(mktemp -d)
trap 'rm -rf "$work"' EXIT

# A search for a word in all annotations on the manifest.
search='2024-05-01T11:00:00Z - GET /search/m1?q=heron'

# Two lines that every input begins with: a reader and a manifest.
beginning() {
  printf '%s\n' \
    '2024-05-01T10:00:00Z - PUT /readers/mara?version=1 {"groups":["a"],"role":"writer","token":"tok-mara","user":"http://a.example/u/mara"}' \
    '2024-05-01T10:00:00Z - PUT /manifests/m1?version=1&group=public {"items":[{"height":100,"id":"http://a.example/c1","type":"Canvas","width":80}],"label":{"en":["Log"]},"type":"Manifest"}'
}

# The words of the runs that are measured.
words=(- find http://a.example 10)

# Runs the program on the input, for `limit` seconds at most, or two minutes, and sets `status`,
# `micros` and `peak`, the most memory in KiB that it used. It is asked again and again, since a
# short run is over before another program could look.
measure() {
  local start=${EPOCHREALTIME/./} end=$((SECONDS + ${limit:-120})) job state
  "$program" "${words[@]}" <"$work/input" >"$work/output" &
  job=$!
  peak=0
  status=0
  while mapfile -t state <"/proc/$job/status"; do
    if [[ ${state[*]} =~ VmHWM:[[:space:]]*([0-9]+) ]]; then peak=${BASH_REMATCH[1]}; fi
    if ((SECONDS >= end)); then kill "$job" || true; fi
  done 2>/dev/null
  wait "$job" || status=$?
  micros=$((${EPOCHREALTIME/./} - start))
}

# Prints the figures of the last run, which the first word names; the second is the time of a run of
# a tenth of it, or 0.
report() {
  if [ "$status" -ne 0 ]; then
    echo "$1: ended with status $status"
    return
  fi
  awk -v n="$1" -v l="$(wc -l <"$work/input")" -v t="$micros" -v m="$((peak * 1024))" -v b="$(stat -c %s "$work/input")" -v f="$2" 'BEGIN {
    printf "%s: %.3f s, %d lines a second, peak %.1f MB, %.1f times the input of %.1f MB", n, t / 1e6, l * 1e6 / t, m / 1e6, m / b, b / 1e6
    if (f > 0) printf ", %.1f times the time of a tenth", t / f
    print ""
  }'
}

# Runs the program on the input, and sets `used`, the microseconds of a processor that it used.
measure_used() {
  local TIMEFORMAT='%3U %3S' spent
  spent=$({ time "$program" "${words[@]}" <"$work/input" >"$work/output" 2>"$work/told"; } 2>&1)
  used=$(awk '{ printf "%d", ($1 + $2) * 1e6 }' <<<"$spent")
}

# Runs the program on the input three times, and sets `least`, the fewest microseconds that it used.
measure_least() {
  least=
  for _ in 1 2 3; do
    measure_used
    if [ -z "$least" ] || ((used < least)); then least=$used; fi
  done
}
