# Sourced by the tests over real sockets and files: the program that they try, a folder for what
# they write, and the packages that they need. ANNO names another program than the proved one.
top=$(cd "$(dirname "${BASH_SOURCE[0]}")/.." && pwd)
program=${ANNO:-}
if [ -z "$program" ]; then
  "$top/build"
  program=$top/crates/anno/out/anno
fi
export PYTHONDONTWRITEBYTECODE=1
work=$(mktemp -d)
trap 'rm -rf "$work"' EXIT

# Installs a Debian package.
install() {
  if ! apt-get update -qq || ! apt-get install -y -qq --no-install-recommends "$1"; then
    echo "the package $1 can't be installed" >&2
    return 1
  fi >"$work/install"
}

# Installs the package of each command that isn't there, each named COMMAND:PACKAGE.
need() {
  local tool
  for tool; do
    command -v "${tool%%:*}" >/dev/null || install "${tool##*:}"
  done
}

# Waits until something listens at a port of this machine, for a minute at most.
await() {
  local _
  for _ in {1..600}; do
    if (exec 3<>"/dev/tcp/127.0.0.1/$1") 2>/dev/null; then return 0; fi
    sleep 0.1
  done
  echo "nothing listens on port $1" >&2
  return 1
}
