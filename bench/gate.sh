#!/usr/bin/env bash
# Runs the merge gate from nothing, and prints a table: each crate's lines of code, definitions and proofs, and the
# minutes of a processor that its proof and its must-fail edits took, as the processes of the prover tell
# them twice a second. Below it stand their sum, and the longest chain of what waits for each other, which
# no number of processors makes shorter. What the gate says goes to standard error, and its status is the
# status.
set -eu
cd "$(dirname "$0")/.."

# For each process of the prover that no other one started: its number, when it started, and how much
# of a processor it and all below it have used, in clock ticks.
provers() {
  awk '{
    pid = $1; name = $0; sub(/^[^(]*\(/, "", name); sub(/\).*/, "", name); sub(/.*\) /, "")
    parent[pid] = $2; used[pid] = $12 + $13 + $14 + $15; start[pid] = $20; is_prover[pid] = name == "rattle"
  } END {
    for (pid in parent) {
      top = 0
      for (at = pid; at in parent; at = parent[at]) if (is_prover[at]) top = at
      if (top) total[top] += used[pid]
    }
    for (top in total) print top, start[top], total[top]
  }' /proc/[0-9]*/stat 2>/dev/null || true
}

# The crate that a process of this gate is at, and what it does there.
task_of() {
  local words crate kind=proof
  tr '\0' '\n' <"/proc/$1/environ" | grep -qx "ANNO_GATE=$$" || return 0
  words=$(tr '\0' ' ' <"/proc/$1/cmdline")
  [[ $words =~ --crate-name\ ([^ ]+) ]] || return 0
  crate=${BASH_REMATCH[1]}
  if [[ $(readlink "/proc/$1/cwd") == */rt-edit-* ]]; then kind=edits; fi
  echo "$crate $kind"
}

# A kit that keeps nothing between runs has no word for a run from nothing.
anew=()
if rt help 2>&1 | grep -q -- --anew; then anew=(--anew); fi
declare -A tasks=() ticks=() minutes=()
ANNO_GATE=$$ rt ci "${anew[@]}" >&2 &
gate=$!
while kill -0 "$gate" 2>/dev/null; do
  while read -r pid start used; do
    key=$pid.$start
    if [ ! -v "tasks[$key]" ]; then tasks[$key]=$(task_of "$pid" 2>/dev/null || true); fi
    ticks[$key]=$used
  done < <(provers)
  sleep 0.5
done
status=0
wait "$gate" || status=$?

# Minutes of so many clock ticks, with one decimal.
in_minutes() { awk -v t="$1" -v s="$(getconf CLK_TCK)" 'BEGIN { printf "%.1f", t / s / 60 }'; }

# The lines of a crate's files of a kind.
lines() { find "$@" -type f -exec cat {} + 2>/dev/null | wc -l; }

for key in "${!tasks[@]}"; do
  task=${tasks[$key]}
  if [ -n "$task" ]; then minutes[$task]=$((${minutes[$task]:-0} + ticks[$key])); fi
done
# The clock ticks of a crate's proof, or of its edits.
ticks_of() { echo "${minutes["$1 $2"]:-0}"; }

# A crate is proved behind those that it names, and its edits are tried behind its proof, each in turn. So
# what a crate waits for is the longest chain of proofs below it. crates.txt may name crates in any order.
declare -A named=() chain=() below=()
while IFS=: read -r crate names; do
  named[${crate%% *}]=$names
done < <(grep -v '^#' crates.txt)

# Finds the longest chain of proofs that ends at a crate, in ticks, and the crate below it there.
find_chain() {
  local name longest=0 last=
  if [ -v "chain[$1]" ]; then return; fi
  for name in ${named[$1]}; do
    if [ ! -v "named[$name]" ]; then continue; fi
    find_chain "$name"
    if ((chain[$name] > longest)); then longest=${chain[$name]} last=$name; fi
  done
  chain[$1]=$((longest + $(ticks_of "$1" proof)))
  below[$1]=$last
}

echo '| Crate | Code | Definitions | Proofs | Minutes for its proof | its edits |'
echo '|---|---|---|---|---|---|'
total=0 longest=0 last=
while IFS=': ' read -r crate _; do
  row="| \`$crate\`"
  for part in src specs proofs; do row+=" | $(lines "crates/$crate/$part")"; done
  for kind in proof edits; do
    used=$(ticks_of "$crate" "$kind")
    total=$((total + used))
    row+=" | $(in_minutes "$used")"
  done
  echo "$row |"
  find_chain "$crate"
  with_edits=$((chain[$crate] + $(ticks_of "$crate" edits)))
  if ((with_edits > longest)); then longest=$with_edits last=$crate; fi
done < <(grep -v '^#' crates.txt)

steps="the edits of $last"
for ((at = 0; at < ${#named[@]}; at++)); do
  if [ -z "$last" ]; then break; fi
  steps="$last, $steps"
  last=${below[$last]}
done
echo
echo "$(in_minutes "$total") minutes of a processor, $((SECONDS / 60)) on the clock, $(nproc) processors, $(rt version)"
echo "the longest chain: $(in_minutes "$longest") minutes of a processor, by the proofs of $steps"
exit "$status"
