#!/usr/bin/env bash
# floor.sh: what plain loops in C++ take for the work whose bounds bench/hostile.sh and
# bench/growth.sh show, so that a bound which is missed can be held against what this machine could
# do at that moment. It prints the least milliseconds of a processor of several runs. Installs by
# apt-get, where it isn't there: g++.
set -eu
work=$(mktemp -d)
trap 'rm -rf "$work"' EXIT
command -v g++ >/dev/null || apt-get install -y g++ >/dev/null
echo "processors: $(nproc)"
g++ -O2 -o "$work/floor" "$(dirname "$0")/floor.cpp"
"$work/floor"
