"""Runs `apigate vet` on many clients, and internal/statements, which says what Go's checker has of them."""
import itertools
import json
import queue
import re
import shlex
import subprocess
import sys
import threading

PLATFORMS = "linux-amd64,linux-386"
REFUSED = "refused"
SHELLS, AHEAD = 4, 300
ENDED = re.compile(r"==(\d+)==\n")


def answers(asker, asked_of):
    """What Go says, an object a line. Go goes on while what it said before is looked at."""
    ran = subprocess.Popen([asker], stdin=subprocess.PIPE, stdout=subprocess.PIPE)
    with ran.stdin:
        ran.stdin.write(json.dumps(asked_of).encode())
    lines = queue.Queue(AHEAD)

    def listen():
        for line in ran.stdout:
            lines.put(line)
        lines.put(None)

    threading.Thread(target=listen, daemon=True).start()
    while line := lines.get():
        yield json.loads(line)
    if ran.wait():
        sys.exit("internal/statements ended with %d" % ran.returncode)


def vetted(program, room, asked):
    """The lines of the program for each client that is asked about, by its words, or its refusal for each platform. Shells run it for many of them, one after another."""
    shares = [asked[at::SHELLS] for at in range(SHELLS)]
    running = []
    for share in shares:
        script = "".join("%s 2>&1 </dev/null; echo ==$?==\n" % shlex.join([program, "vet", *words]) for words in share)
        running.append(subprocess.Popen(["sh", "-s"], stdin=subprocess.PIPE, stdout=subprocess.PIPE, cwd=room))
        threading.Thread(target=fed, args=(running[-1].stdin, script.encode()), daemon=True).start()
    told = [shell.stdout.read().decode(errors="replace") for shell in running]
    found = [None] * len(asked)
    for at, text in enumerate(told):
        parts = ENDED.split(text)
        for number, words in enumerate(shares[at]):
            found[at + number * SHELLS] = lines_of(parts[2 * number], int(parts[2 * number + 1]), words)
    return found


def fed(into, script):
    with into:
        into.write(script)


def lines_of(told, status, words):
    """The lines that the program printed with a status, or its refusal for each platform."""
    if status in (0, 1) and (status == 1) == (": untyped at " in told):
        return told.splitlines()
    kind = REFUSED if status == 3 and not told.startswith("client ") else "status %d" % status
    return ["%s: %s" % (kind, told.strip())] * len(words[words.index("--platforms") + 1].split(","))


def words_of(module, client, std=None, platforms=PLATFORMS):
    """The words behind `vet`."""
    return ["--new", module, "--client", client, "--platforms", platforms] + (["--std", std] if std else [])


def several(found, count):
    """Lists of some of what is found one by one."""
    while some := list(itertools.islice(found, count)):
        yield some
