"""What the tests over sockets and files share: servers, connections, and the cells of a store."""
import atexit
import http.client
import json
import os
import re
import select
import shutil
import signal
import socket
import sqlite3
import subprocess
import time
from dataclasses import dataclass

BASE = "http://a.example"
MANIFEST = (
    '{"items":[{"height":100,"id":"http://a.example/c1","type":"Canvas","width":80}],'
    '"label":{"en":["Log"]},"type":"Manifest"}'
)


def note_text(text):
    """The JSON text of an annotation with this text."""
    return json.dumps(
        {"bodyValue": text, "target": "http://a.example/c1", "type": "Annotation"},
        separators=(",", ":"),
    )


def reader_line(name, role):
    """A line that makes a reader, whose token is that of `token`."""
    user = f"http://a.example/u/{name}"
    reader = {"groups": [], "role": role, "token": token(name), "user": user}
    return f"2024-05-01T10:00:00Z - PUT /readers/{name}?version=1 {json.dumps(reader)}\n"


def token(name):
    return f"token-of-{name}"


def free_port():
    """A port that nobody listens on now."""
    with socket.socket() as found:
        found.bind(("127.0.0.1", 0))
        return found.getsockname()[1]


class Server:
    """A process of `serve`. `wrap` are words before the program's name, and `size` how many items a
    page has."""

    def __init__(self, program, store, workers=8, wrap=(), environment=None, pass_fds=(), size=10):
        self.port = free_port()
        self.process = subprocess.Popen(
            [*wrap, program, store, "serve", BASE, str(size), str(self.port), str(workers), "0"],
            stdin=subprocess.DEVNULL, stdout=subprocess.PIPE, stderr=subprocess.PIPE,
            env=environment, pass_fds=pass_fds,
        )
        self.said = b""
        atexit.register(self.kill)

    def wait_until_it_listens(self, seconds=60):
        """Whether it listens in time. Not so where it has ended before. How far a long opening is
        may be told first."""
        end = time.monotonic() + seconds
        while b"listening on " not in self.said and time.monotonic() < end:
            ready, _, _ = select.select([self.process.stderr], [], [], 0.1)
            if ready:
                piece = os.read(self.process.stderr.fileno(), 4096)
                if not piece:
                    return False
                self.said += piece
        return b"listening on " in self.said

    def lines_said(self):
        """The lines that it has written to standard error so far."""
        while select.select([self.process.stderr], [], [], 0)[0]:
            piece = os.read(self.process.stderr.fileno(), 4096)
            if not piece:
                break
            self.said += piece
        return self.said.decode().splitlines()

    def kill(self):
        """Ends it by signal 9, where it hasn't ended, and answers its status."""
        if self.process.poll() is None:
            self.process.send_signal(signal.SIGKILL)
        status = self.process.wait()
        self.process.stdout.close()
        self.process.stderr.close()
        atexit.unregister(self.kill)
        return status

    def memory(self, name):
        """A figure of its memory in KiB, such as VmHWM or VmSize."""
        return memory(self.process.pid, name)

    def used(self):
        """The seconds of a processor that it has taken."""
        return used(self.process.pid)


def memory(process, name):
    """A figure of a process's memory in KiB."""
    with open(f"/proc/{process}/status") as lines:
        for line in lines:
            if line.startswith(name + ":"):
                return int(line.split()[1])
    raise KeyError(name)


def used(process):
    """The seconds of a processor that a process has taken, its threads that have ended too."""
    with open(f"/proc/{process}/stat") as file:
        parts = file.read().rpartition(")")[2].split()
    return (int(parts[11]) + int(parts[12])) / os.sysconf("SC_CLK_TCK")


class Gone(Exception):
    """A connection that ended before the reply."""


class Connection:
    """Requests one behind another. Where the server has closed, the next one opens anew."""

    def __init__(self, port, seconds=20):
        self.link = http.client.HTTPConnection("127.0.0.1", port, timeout=seconds)

    def ask(self, method, target, name=None, text=None):
        """The status and the body of the reply to a request that `name` signs."""
        fields = {} if name is None else {"Authorization": "Bearer " + token(name)}
        try:
            body = None if text is None else text.encode()
            self.link.request(method, target, body=body, headers=fields)
            reply = self.link.getresponse()
            return reply.status, reply.read()
        except (OSError, http.client.HTTPException) as error:
            self.link.close()
            raise Gone(repr(error)) from error

    def close(self):
        self.link.close()


HEAD = re.compile(rb"HTTP/1\.1 (\d+) .*?\r\n\r\n", re.DOTALL)
LENGTH = re.compile(rb"\r\nContent-Length: (\d+)\r\n")


class RawConnection:
    """Requests as bytes, several at once where they are, over one connection."""

    def __init__(self, port, seconds=60):
        self.link = socket.create_connection(("127.0.0.1", port), timeout=seconds)
        self.link.setsockopt(socket.IPPROTO_TCP, socket.TCP_NODELAY, 1)
        self.left = b""

    def ask(self, asked, count=1, has_body=True):
        """The status and the body of each of so many replies to these requests. The reply to a
        HEAD has none."""
        try:
            self.link.sendall(asked)
            return [self.reply(has_body) for _ in range(count)]
        except OSError as error:
            raise Gone(repr(error)) from error

    def reply(self, has_body=True):
        while not (head := HEAD.match(self.left)):
            self.more()
        length = LENGTH.search(head[0]) if has_body else None
        end = head.end() + (int(length[1]) if length else 0)
        while len(self.left) < end:
            self.more()
        body, self.left = self.left[head.end():end], self.left[end:]
        return int(head[1]), body

    def more(self):
        piece = self.link.recv(1 << 20)
        if not piece:
            raise Gone("the connection ended before the reply")
        self.left += piece

    def close(self):
        self.link.close()


def request(method, target, name=None, text="", fields=()):
    """The bytes of a request, that `name` signs."""
    lines = [f"{method} {target} HTTP/1.1", *fields]
    if name is not None:
        lines.append(f"Authorization: Bearer {token(name)}")
    if method == "PUT":
        lines.append(f"Content-Length: {len(text.encode())}")
    return "\r\n".join([*lines, "", text]).encode()


@dataclass
class Ended:
    """How a run ended: its status or less than 0 for a signal, what it printed, the seconds that it
    took and those of a processor, and the most memory that it had, in KiB."""
    status: int
    printed: bytes
    took: float
    used: float
    peak: int


def play(program, store, words, given, seconds=600, most=None):
    """A run of the program over these words and the file `given`, which is ended after so many
    seconds, or where it has more memory than `most` KiB."""
    began, peak, ended = time.monotonic(), 0, 0
    with open(given, "rb") as lines, open(given + ".printed", "w+b") as printed:
        process = subprocess.Popen([program, store, *words], stdin=lines, stdout=printed,
                                   stderr=subprocess.DEVNULL)
        while not ended:
            try:
                peak = max(peak, memory(process.pid, "VmHWM"))
            except (KeyError, OSError):
                # It ends just now.
                pass
            if time.monotonic() - began > seconds or most and peak > most:
                process.kill()
            time.sleep(0.002)
            ended, status, usage = os.wait4(process.pid, os.WNOHANG)
        took = time.monotonic() - began
        process.returncode = os.waitstatus_to_exitcode(status)
        printed.seek(0)
        return Ended(process.returncode, printed.read(1 << 16), took,
                     usage.ru_utime + usage.ru_stime, peak)


def run(program, store, words, given=b"", wrap=(), seconds=120):
    """The status and the output of a run of the program over these words."""
    done = subprocess.run(
        [*wrap, program, store, *words], input=given, stdout=subprocess.PIPE,
        stderr=subprocess.PIPE, timeout=seconds,
    )
    return done.returncode, done.stdout


def new_store(program, path):
    """Makes a store with the curator mara and the manifest m1, and answers its path."""
    lines = reader_line("mara", "curator")
    lines += f"2024-05-01T10:00:00Z mara PUT /manifests/m1?version=1 {MANIFEST}\n"
    told = run(program, path, ["import"], lines.encode())
    assert told == (0, b"accepted 2 repeated 0 old 0\n"), told
    return path


def bytes_of(path):
    """The bytes of a store's file and of its log, each None where it is no file."""
    found = []
    for part in (path, path + "-wal"):
        found.append(None)
        if os.path.isfile(part):
            with open(part, "rb") as file:
                found[-1] = file.read()
    return found


def copy_store(path, beside):
    """Copies a store's file and log in place of another's."""
    for end in ("", "-wal", "-shm"):
        if os.path.exists(beside + end):
            os.remove(beside + end)
        if end != "-shm" and os.path.exists(path + end):
            shutil.copyfile(path + end, beside + end)


def check_sound(path):
    """Fails where Debian's sqlite3 finds a file not sound."""
    told = subprocess.run(["sqlite3", path, "PRAGMA integrity_check"], stdout=subprocess.PIPE,
                          stderr=subprocess.STDOUT, timeout=120)
    if told.returncode != 0 or told.stdout != b"ok\n":
        raise AssertionError(f"sqlite3 finds the file not sound: {told.stdout!r}")


def cells_of(path, beside, is_checked=True):
    """The cells of a store, by SQLite on a copy of its file and log at the path `beside`, which it
    has to find sound."""
    copy_store(path, beside)
    if is_checked:
        check_sound(beside)
    base = sqlite3.connect(beside)
    try:
        if not base.execute("SELECT 1 FROM sqlite_schema WHERE name = 'cell'").fetchone():
            return []
        return base.execute("SELECT tab, key, val FROM cell ORDER BY tab, key").fetchall()
    finally:
        base.close()


class Table:
    """What a test prints: a row for each thing that it shows."""

    def __init__(self):
        self.wrong = 0

    def row(self, what, is_due, told=""):
        self.wrong += not is_due
        print(f"{'ok' if is_due else 'WRONG':5}  {what}{': ' if told else ''}{told}", flush=True)

    def end(self):
        """Ends the program: with 0 where all was as due."""
        raise SystemExit(1 if self.wrong else 0)
