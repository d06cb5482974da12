"""hostile.py PROGRAM WORK SEED SECONDS: hostile clients at a server, alone and behind nginx;
hostile.sh has the rest."""
import json
import os
import subprocess
import sys
import threading
import time

from served import Connection, Gone, Server, Table, free_port, new_store, note_text

# The bounds that are shown. The system tries a connection that found no room again behind one,
# three and seven seconds, so 200 at once make some others wait; nginx has room.
SLOWEST = {"alone": 10.0, "behind nginx": 2.0}
MEMORY = int(os.environ.get("MEMORY_MIB", "128")) * 1024

NGINX = """
worker_processes 1;
daemon off;
{user}
error_log {work}/nginx.log warn;
pid {work}/nginx.pid;
events {{ worker_connections 8192; }}
http {{
  access_log off;
  client_body_temp_path {work}/bodies;
  proxy_temp_path {work}/replies;
  client_max_body_size 1m;
  client_header_timeout 10s;
  client_body_timeout 10s;
  send_timeout 10s;
  keepalive_timeout 20s;
  upstream anno {{
    server 127.0.0.1:{back};
    keepalive 8;
    keepalive_timeout 20s;
    keepalive_requests 500;
  }}
  server {{
    listen 127.0.0.1:{front} backlog=4096;
    location / {{
      proxy_pass http://anno;
      proxy_http_version 1.1;
      proxy_set_header Connection "";
      proxy_set_header Host $host;
    }}
  }}
}}
"""


class Honest(threading.Thread):
    """A client whose requests have to be answered rightly and in time, each over a connection of
    its own, by turns a write and reads."""

    def __init__(self, port, number, end):
        super().__init__()
        self.port, self.number, self.end = port, number, end
        self.asked, self.slowest, self.wrong = 0, 0.0, []

    def run(self):
        while time.monotonic() < self.end:
            name = f"h{self.number}-{self.asked}"
            target = f"/annotations/mara/{name}"
            text = note_text(f"heron {name}")
            self.ask("PUT", target + "?version=1&manifest=m1", text, 201, b'"repeat":false')
            self.ask("GET", target, None, 200, f"heron {name}".encode())
            self.ask("GET", "/search/m1?q=nothing", None, 200, b'"total":0')
            time.sleep(0.01)

    def ask(self, method, target, text, due, part):
        begun = time.monotonic()
        connection = Connection(self.port, seconds=60)
        try:
            status, body = connection.ask(method, target, "mara", text)
            if status != due or part not in body:
                self.wrong.append((method, target, status, body[:200]))
        except Gone as gone:
            self.wrong.append((method, target, str(gone)))
        finally:
            connection.close()
        self.asked += 1
        self.slowest = max(self.slowest, time.monotonic() - begun)


def under(attacks, port, seconds, seed):
    """What attackers and honest clients found: each attack is a port, a number of connections and
    the kinds of these."""
    end = time.monotonic() + seconds
    script = os.path.join(os.path.dirname(os.path.abspath(__file__)), "attack.py")
    running = []
    for at, count, kinds in attacks:
        words = [sys.executable, script, str(at), str(count), str(seconds), seed, *kinds]
        running.append(subprocess.Popen(words, stdout=subprocess.PIPE))
    honest = [Honest(port, number, end) for number in range(4)]
    for client in honest:
        client.start()
    for client in honest:
        client.join(seconds + 120)
    told = [json.loads(attack.communicate(timeout=120)[0]) for attack in running]
    return honest, told


def report(table, what, server, honest, told):
    asked = sum(client.asked for client in honest)
    wrong = [each for client in honest for each in client.wrong]
    slowest = max(client.slowest for client in honest)
    table.row(f"{what}: others are answered throughout",
              not wrong and asked > 100 and slowest < SLOWEST[what],
              f"{asked} requests, {len(wrong)} wrong, the slowest took {slowest:.3f} s"
              f" {wrong[:3] or ''}")
    counts = [attack["counts"] for attack in told]
    refusals = [each for attack in told for each in attack["wrong"]]
    table.row(f"{what}: the hostile are refused as is due", not refusals and all(counts),
              f"{counts} {refusals[:3] or ''}")
    status = server.process.poll()
    table.row(f"{what}: the server lives", status is None, "" if status is None else f"{status}")
    if status is None:
        most = server.memory("VmHWM")
        table.row(f"{what}: at most {MEMORY} KiB of memory", most < MEMORY, f"{most} KiB")


def alone(program, work, seed, seconds, table):
    server = Server(program, new_store(program, os.path.join(work, "alone.db")), workers=64)
    assert server.wait_until_it_listens()
    kinds = ["noise", "endless", "cut", "http2", "tls", "cut_off"]
    attacks = [(server.port, 200, kinds), (server.port, 32, ["silent"])]
    report(table, "alone", server, *under(attacks, server.port, seconds, seed))
    server.kill()


def behind_nginx(program, work, seed, seconds, table):
    server = Server(program, new_store(program, os.path.join(work, "behind.db")), workers=16)
    assert server.wait_until_it_listens()
    front = free_port()
    user = "user root;" if os.getuid() == 0 else ""
    config = os.path.join(work, "nginx.conf")
    with open(config, "w") as file:
        file.write(NGINX.format(user=user, work=work, back=server.port, front=front))
    nginx = subprocess.Popen(["nginx", "-p", work, "-c", config], stderr=subprocess.DEVNULL)
    try:
        wait_for(front)
        attacks = [(front, 1000, ["silent"]), (front, 1000, ["slow"])]
        report(table, "behind nginx", server, *under(attacks, front, seconds, seed))
    finally:
        nginx.terminate()
        nginx.wait()
        server.kill()


def wait_for(port):
    """Waits until something answers there."""
    for _ in range(100):
        try:
            Connection(port, seconds=5).ask("GET", "/nowhere")
            return
        except Gone:
            time.sleep(0.1)
    raise AssertionError(f"nothing listens on port {port}")


def main():
    program, work, seed, seconds = sys.argv[1], sys.argv[2], sys.argv[3], float(sys.argv[4])
    table = Table()
    alone(program, work, seed, seconds, table)
    behind_nginx(program, work, seed, seconds, table)
    table.end()


main()
