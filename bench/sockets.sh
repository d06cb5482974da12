# Sourced by the benchmarks over sockets and files, behind measure.sh: packages, ports, and what a
# process has taken.

# Installs the Debian package of each command that isn't there, each named COMMAND:PACKAGE.
need() {
  local tool
  for tool; do
    if ! command -v "${tool%%:*}" >/dev/null; then
      apt-get update -qq
      apt-get install -y -qq --no-install-recommends "${tool##*:}"
    fi
  done >/dev/null 2>&1
}

# The microseconds of a processor that a process and those that it began have taken.
taken() {
  local process all=0 ticks
  for process in "$1" $(pgrep -P "$1" || true); do
    ticks=$(awk '{ sub(/.*\) /, ""); print $12 + $13 }' "/proc/$process/stat")
    all=$((all + ticks))
  done
  echo $((all * 1000000 / $(getconf CLK_TCK)))
}

# A figure of a process's memory in KiB, such as VmHWM or VmRSS.
memory() { awk -v name="$2:" '$1 == name { print $2 }' "/proc/$1/status"; }

# Waits until something listens at a port of this machine, for ten minutes at most: a large store
# takes long to open.
await() {
  local _
  for _ in {1..6000}; do
    if (exec 3<>"/dev/tcp/127.0.0.1/$1") 2>/dev/null; then return 0; fi
    sleep 0.1
  done
  echo "nothing listens on port $1" >&2
  return 1
}

# Serves a store at a port, by so many workers, and sets `server`.
serve() {
  "$program" "$1" serve "$base" 10 "$2" "$3" 0 >"$work/served" 2>&1 &
  server=$!
  await "$2"
}

# Ends a process and waits for it.
stop() {
  kill "$1" 2>/dev/null || true
  wait "$1" 2>/dev/null || true
}

# Tells on what the work folder stands, and how long a write to it takes that waits for the disk.
tell_disk() {
  local begun=${EPOCHREALTIME/./}
  dd if=/dev/zero of="$work/dd" bs=4k count=50 oflag=dsync 2>/dev/null
  echo "store on $(df --output=fstype "$work" | tail -n 1), where a write of 4 KiB that waits for" \
    "the disk takes $(((${EPOCHREALTIME/./} - begun) / 50)) microseconds"
  rm "$work/dd"
}

# A script of wrk in which each thread makes annotation behind annotation of 32 words, under names
# that begin so.
writer() {
  cat <<LUA
local text = '{"body":{"type":"TextualBody","value":"'
  .. string.rep('heron swan gull tern ', 8)
  .. '"},"target":"http://a.example/c1","type":"Annotation"}'
local signed = {["Authorization"] = "Bearer tok-mara"}
local threads, made = 0, 0
function setup(thread) threads = threads + 1; thread:set("name", "$1" .. threads .. "x") end
function request()
  made = made + 1
  local target = "/annotations/mara/" .. name .. made .. "?version=1&manifest=m1"
  return wrk.format("PUT", target, signed, text)
end
LUA
}
