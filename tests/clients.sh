#!/usr/bin/env bash
# Asks the built server over a port of loopback by clients that people use, and compares what it
# answers: curl, with connections that are kept and requests that wait for leave; raw bytes, with
# requests one behind another and in pieces; Python's http.client and `requests`; `ab` with 64
# connections; and a page of another origin in headless Chromium, whose preflight has to pass. The
# store is empty, so nobody is known there. It is no part of the gate, and installs those of these
# clients that aren't there by Debian's packages. Ends with 0 where every reply is as it is due.
set -eu
. "$(dirname "$0")/program.sh"
need curl:curl ab:apache2-utils chromium:chromium /usr/bin/python3:python3
python=/usr/bin/python3
"$python" -c 'import requests' 2>/dev/null || install python3-requests
# Below the ports that the system gives to clients.
port=$((20000 + RANDOM % 12000))
at=http://127.0.0.1:$port
"$program" - serve "$at" 10 "$port" 64 0 2>"$work/told" &
server=$!
trap 'kill "$server" 2>/dev/null || true; rm -rf "$work"' EXIT
await "$port"

# What is compared now, and for each how many replies were asked for, and how many weren't as due.
client=
declare -A asked=() wrong=()

# Counts a reply of this client, which is wrong where the word says so.
count() {
  asked[$client]=$((${asked[$client]:-0} + 1))
  if [ "$1" = wrong ]; then wrong[$client]=$((${wrong[$client]:-0} + 1)); fi
}

# Compares what stands in the file `found` to standard input.
compare() {
  cat >"$work/due"
  if diff <(tr -d '\r' <"$work/found") "$work/due" >"$work/difference"; then
    count right
  else
    count wrong
    echo "wrong: $1"
    cat "$work/difference"
  fi
}

# Compares what curl prints, with these words, to standard input, whose lines of a head end in CR
# LF.
due() {
  local name=$1
  shift
  curl --silent --show-error --max-time 20 "$@" >"$work/found" 2>&1 ||
    echo "curl ended with $?" >>"$work/found"
  compare "$name"
}

# Compares what comes back over one connection, to which the pieces of the arguments are written.
raw() {
  local name=$1 piece
  shift
  exec 3<>"/dev/tcp/127.0.0.1/$port"
  for piece; do
    printf "$piece" >&3
    sleep 0.05
  done
  timeout 10 cat <&3 >"$work/found" || true
  exec 3<&-
  echo >>"$work/found"
  compare "$name"
}

absent='HTTP/1.1 404 Not Found
Access-Control-Allow-Origin: *
Allow: GET, HEAD, OPTIONS, PUT, DELETE
Content-Length: 18
Content-Type: application/json
'
unsigned='HTTP/1.1 401 Unauthorized
Access-Control-Allow-Origin: *
Allow: GET, HEAD, OPTIONS, PUT, DELETE
Content-Length: 22
Content-Type: application/json
WWW-Authenticate: Bearer

{"error":"not_signed"}'
note='{"type":"Annotation","bodyValue":"heron","target":"http://a.example/c1"}'
put=(--include --request PUT "$at/annotations/mara/n1?version=1&manifest=m1")

client=curl
due 'an annotation that is not there' --include --write-out '\n' "$at/annotations/mara/n1" <<DUE
$absent
{"error":"absent"}
DUE
due 'several requests over one connection' --write-out ' %{http_code} %{num_connects}\n' \
  "$at/manifests/m1" "$at/annotations/mara/n1" "$at/nowhere" "$at/search/m1?q=heron" <<'DUE'
{"error":"absent"} 404 1
{"error":"absent"} 404 0
{"error":"route"} 404 0
{"error":"absent"} 404 0
DUE
due 'the head alone' --head "$at/manifests/m1" <<DUE
$absent
DUE
due 'what a path has' --include --request OPTIONS "$at/search/m1" <<'DUE'
HTTP/1.1 204 No Content
Access-Control-Allow-Headers: Authorization, Content-Type, Prefer
Access-Control-Allow-Methods: GET, HEAD, OPTIONS
Access-Control-Allow-Origin: *
Allow: GET, HEAD, OPTIONS

DUE
due 'a read with a token that nobody has' --include --write-out '\n' \
  --header 'Authorization: Bearer tok-none' "$at/manifests/m1" <<DUE
$unsigned
DUE
due 'a put with a token that nobody has' "${put[@]}" --write-out '\n' \
  --header 'Authorization: Bearer tok-mara' --data-binary "$note" <<DUE
$unsigned
DUE
due 'a put that waits for leave to send its body, and goes on without it' "${put[@]}" \
  --write-out '\n' --header 'Expect: 100-continue' --header 'Authorization: Bearer tok-mara' \
  --data-binary "$note" <<DUE
$unsigned
DUE
due 'a put of what is no JSON' "${put[@]}" --write-out '\n' --data-binary '[1' <<'DUE'
HTTP/1.1 400 Bad Request
Access-Control-Allow-Origin: *
Allow: GET, HEAD, OPTIONS, PUT, DELETE
Content-Length: 16
Content-Type: application/json

{"error":"json"}
DUE
head -c 1048577 /dev/zero >"$work/large"
due 'a body of one byte too many' "${put[@]}" --write-out '\n' --data-binary "@$work/large" <<'DUE'
HTTP/1.1 413 Content Too Large
Access-Control-Allow-Origin: *
Connection: close
Content-Length: 17
Content-Type: application/json

{"error":"large"}
DUE
due 'a head that is too long' --include --write-out '\n' \
  --header "A: $(printf '%16384s' '' | tr ' ' a)" "$at/manifests/m1" <<'DUE'
HTTP/1.1 400 Bad Request
Access-Control-Allow-Origin: *
Connection: close
Content-Length: 16
Content-Type: application/json

{"error":"head"}
DUE
# Prints so many arrays inside each other.
nested() {
  printf '%*s' "$1" '' | tr ' ' '['
  printf '%*s' "$1" '' | tr ' ' ']'
}

for levels in '100 not_signed' '101 deep' '127 deep' '128 json'; do
  due "a body of ${levels% *} levels" --write-out '\n' --request PUT \
    --data-binary "$(nested "${levels% *}")" "$at/manifests/m1?version=1" <<DUE
{"error":"${levels#* }"}
DUE
done
due 'a method that the path has not' --include --write-out '\n' \
  --request POST "$at/search/m1" <<'DUE'
HTTP/1.1 405 Method Not Allowed
Access-Control-Allow-Origin: *
Allow: GET, HEAD, OPTIONS
Content-Length: 18
Content-Type: application/json

{"error":"method"}
DUE

# ---- requests one behind another, and in pieces

client='raw bytes'
closing='GET /manifests/m1 HTTP/1.1\r\nConnection: close\r\n\r\n'
raw 'three requests at once' \
  "GET /nowhere HTTP/1.1\r\n\r\nHEAD /nowhere HTTP/1.1\r\n\r\n$closing" <<'DUE'
HTTP/1.1 404 Not Found
Access-Control-Allow-Origin: *
Content-Length: 17
Content-Type: application/json

{"error":"route"}HTTP/1.1 404 Not Found
Access-Control-Allow-Origin: *
Content-Length: 17
Content-Type: application/json

HTTP/1.1 404 Not Found
Access-Control-Allow-Origin: *
Allow: GET, HEAD, OPTIONS, PUT, DELETE
Connection: close
Content-Length: 18
Content-Type: application/json

{"error":"absent"}
DUE
raw 'a request in pieces' 'GET /now' 'here HTTP/1.0\r' '\n\r' '\n' <<'DUE'
HTTP/1.1 404 Not Found
Access-Control-Allow-Origin: *
Connection: close
Content-Length: 17
Content-Type: application/json

{"error":"route"}
DUE
raw 'what is no request' 'hello\r\n\r\n' <<'DUE'
HTTP/1.1 400 Bad Request
Access-Control-Allow-Origin: *
Connection: close
Content-Length: 16
Content-Type: application/json

{"error":"head"}
DUE

# ---- Python

client=http.client
"$python" - "$port" >"$work/found" 2>&1 <<'PYTHON' || true
import http.client, sys
port = int(sys.argv[1])
link = http.client.HTTPConnection("127.0.0.1", port, timeout=20)
for method, path, body in [
    ("GET", "/manifests/m1", None),
    ("HEAD", "/manifests/m1", None),
    ("OPTIONS", "/changes", None),
    ("PUT", "/manifests/m1?version=1", b"{}"),
    ("GET", "/changes?page=2", None),
]:
    link.request(method, path, body=body)
    reply = link.getresponse()
    print(method, reply.status, reply.getheader("Content-Length"), reply.read().decode())
PYTHON
compare 'http.client, over one connection' <<'DUE'
GET 404 18 {"error":"absent"}
HEAD 404 18 
OPTIONS 204 None 
PUT 401 22 {"error":"not_signed"}
GET 404 26 {"error":"page","pages":1}
DUE
client=requests
"$python" - "$at" >"$work/found" 2>&1 <<'PYTHON' || true
import sys, requests
at = sys.argv[1]
with requests.Session() as session:
    for _ in range(2):
        reply = session.get(at + "/changes", timeout=20)
        print(reply.status_code, reply.json()["totalItems"])
    reply = session.put(at + "/annotations/mara/n1", params={"version": 1, "manifest": "m1"},
                        json={"type": "Annotation"},
                        headers={"Authorization": "Bearer tok-mara"}, timeout=20)
    print(reply.status_code, reply.json())
    reply = session.get(at + "/search/m1", params={"q": "gr\u00fcner heron"}, timeout=20)
    print(reply.status_code, reply.json())
PYTHON
compare 'requests, with a session' <<'DUE'
200 0
200 0
401 {'error': 'not_signed'}
404 {'error': 'absent'}
DUE

# ---- many connections

client=ab
ab -q -k -n 6400 -c 64 "$at/changes" >"$work/ab" 2>&1 || true
grep -E '^(Complete|Failed) requests' "$work/ab" | tr -s ' ' >"$work/found" || true
compare '64 connections by ab' <<'DUE'
Complete requests: 6400
Failed requests: 0
DUE

# ---- a page of another origin, whose requests a browser asks leave for first

client=Chromium
cat >"$work/page.html" <<PAGE
<!doctype html><pre id="told">nothing</pre><script>
fetch("$at/manifests/m1?version=1", {
  method: "PUT", body: "{}",
  headers: {
    "Authorization": "Bearer tok-mara", "Content-Type": "application/json",
    "Prefer": "return=minimal",
  },
}).then(reply => reply.text().then(text => { told.textContent = reply.status + " " + text; }))
  .catch(error => { told.textContent = "" + error; });
</script>
PAGE
chromium --headless --no-sandbox --disable-gpu --virtual-time-budget=10000 \
  --dump-dom "file://$work/page.html" 2>/dev/null |
  grep -o '<pre id="told">[^<]*' >"$work/found" || true
compare 'a page of another origin in Chromium' <<'DUE'
<pre id="told">401 {"error":"not_signed"}
DUE

# ---- the server itself

client='the server'
cp "$work/told" "$work/found"
compare 'what a server says at its beginning' <<DUE
listening on $at
DUE
"$program" - serve "$at" 10 "$port" 1 1 >"$work/found" 2>"$work/why" && status=0 || status=$?
echo "status $status" >>"$work/found"
compare 'a port that another listens on' <<'DUE'
door failed
status 5
DUE
sed 's/ on: .*/ on/' "$work/why" >"$work/found"
compare 'why a port is not listened on' <<DUE
127.0.0.1:$port can't be listened on
DUE
kill "$server"
wait "$server" 2>/dev/null || true
"$program" - serve "$at" 10 "$port" 2 2 >"$work/served" 2>/dev/null &
server=$!
await "$port"
due 'the same port at once behind an end' --write-out '\n' "$at/nowhere" <<'DUE'
{"error":"route"}
DUE
wait "$server"
cp "$work/served" "$work/found"
compare 'what a server prints at its end' <<'DUE'
served 2
DUE
all=0
printf '%-12s %8s %6s\n' client compared wrong
for client in curl 'raw bytes' http.client requests ab Chromium 'the server'; do
  printf '%-12s %8d %6d\n' "$client" "${asked[$client]:-0}" "${wrong[$client]:-0}"
  all=$((all + ${wrong[$client]:-0}))
  if [ ! -v "asked[$client]" ]; then all=$((all + 1)); fi
done
[ "$all" -eq 0 ]
