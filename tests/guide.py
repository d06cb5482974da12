"""Runs the commands of docs/GUIDE.md in order, and compares what is printed with what stands there.

Words: the guide, the program, an empty folder, and the first of three free ports, which take the
places of 8080, 8081 and 8443.

A block of `sh` is run by one shell for the whole guide, but for one that begins with the line
`# not run by the test`. What it prints has to be the block of `text` behind it, or nothing. There
`<moment>` stands for a moment and `<any>` for any text within a line. A block whose fence names a
file behind its language is written to that file, in the folder where the shell is then.
"""
import os
import re
import signal
import subprocess
import sys

GUIDE, PROGRAM, FOLDER, FIRST_PORT = sys.argv[1:]
PORTS = {port: str(int(FIRST_PORT) + at) for at, port in enumerate(["8080", "8081", "8443"])}
NOT_RUN = "# not run by the test"
MOMENT = r"\d{4}-\d\d-\d\dT\d\d:\d\d:\d\dZ"
SECONDS = 120


def blocks(lines):
    """The fenced blocks: the number of the fence's line, its words, the text, and where it ends."""
    found, start = [], None
    for number, line in enumerate(lines, 1):
        if not line.startswith("```"):
            continue
        if start is None:
            start = number
        else:
            text = "\n".join(lines[start:number - 1])
            found.append((start, lines[start - 1][3:].split(), text, number))
            start = None
    return found


def here(text):
    """The text, with the program and the ports of this run."""
    text = text.replace("/usr/local/bin/anno", PROGRAM)
    return re.sub(r"\b(8080|8081|8443)\b", lambda port: PORTS[port[0]], text)


def pattern(text):
    escaped = re.escape(here(text))
    return escaped.replace("<moment>", MOMENT).replace("<any>", ".*")


def stop(*_):
    raise TimeoutError(f"a block takes longer than {SECONDS} seconds")


class Shell:
    """One shell, whose commands run in order and whose output comes back a block at a time."""

    MARK = "-- the block ends here --"

    def __init__(self):
        path = os.path.dirname(PROGRAM) + ":" + os.environ["PATH"]
        self.process = subprocess.Popen(
            ["bash", "--norc"], stdin=subprocess.PIPE, stdout=subprocess.PIPE,
            stderr=subprocess.STDOUT, cwd=FOLDER, env={**os.environ, "PATH": path},
            start_new_session=True)

    def run(self, commands):
        signal.alarm(SECONDS)
        self.process.stdin.write(f"{commands}\necho '{self.MARK}'\n".encode())
        self.process.stdin.flush()
        printed = b""
        while not printed.endswith(f"{self.MARK}\n".encode()):
            line = self.process.stdout.readline()
            if not line:
                raise EOFError("the shell has ended: " + printed.decode())
            printed += line
        signal.alarm(0)
        return printed.decode()[:-len(self.MARK) - 1].rstrip("\n")

    def write(self, name, text):
        return self.run(f"cat >'{name}' <<'END OF THE FILE'\n{text}\nEND OF THE FILE")

    def close(self):
        """Ends the shell and what it started."""
        os.killpg(self.process.pid, signal.SIGKILL)
        self.process.wait()


def main():
    with open(GUIDE, encoding="utf-8") as file:
        lines = file.read().split("\n")
    found = blocks(lines)
    shell = Shell()
    signal.signal(signal.SIGALRM, stop)
    ran = written = left = wrong = 0
    try:
        for index, (line, words, text, end) in enumerate(found):
            if len(words) == 2:
                shell.write(words[1], here(text))
                written += 1
            elif words == ["sh"] and text.startswith(NOT_RUN):
                left += 1
            elif words == ["sh"]:
                after = found[index + 1] if index + 1 < len(found) else None
                is_due = after is not None and after[1] == ["text"] and after[0] == end + 2
                due = after[2] if is_due else ""
                printed = shell.run(here(text))
                ran += 1
                if not re.fullmatch(pattern(due), printed):
                    wrong += 1
                    print(f"GUIDE.md, line {line}: found\n{printed}\n-- due\n{here(due)}\n--")
    finally:
        shell.close()
    print(f"{ran} blocks run, {written} files written, {left} blocks not run, {wrong} wrong")
    sys.exit(1 if wrong or not ran else 0)


main()
