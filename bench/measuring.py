"""What the scripts of this folder share: running a command and measuring it."""
import collections
import os
import re
import subprocess
import sys
import tempfile
import time

TOP = os.path.dirname(os.path.dirname(os.path.abspath(__file__)))
# what scripts share with those of conformance stands there
sys.path.insert(0, os.path.join(TOP, "conformance"))

Run = collections.namedtuple("Run", "seconds processor peak status output")


def run_once(command, given=None):
    """One run: its time, its processor time, its peak memory in bytes (never less than that of this script, which
    starts it), its status (below 0 for a signal) and its output. GIVEN is the file of its input."""
    with tempfile.TemporaryFile() as out, open(given or os.devnull, "rb") as source:
        start = time.monotonic()
        child = subprocess.Popen(command, stdin=source, stdout=out, stderr=subprocess.DEVNULL)
        _, status, usage = os.wait4(child.pid, 0)
        taken = time.monotonic() - start
        child.returncode = os.waitstatus_to_exitcode(status)
        out.seek(0)
        return Run(taken, usage.ru_utime + usage.ru_stime, usage.ru_maxrss * 1024, child.returncode, out.read())


def best_of(command, runs, given=None, statuses=(0,)):
    """The least times and the peak memory of some runs, which have to end with one of these statuses."""
    done = [run_once(command, given) for _ in range(runs)]
    for one in done:
        if one.status not in statuses:
            sys.exit("%s: status %d" % (" ".join(command), one.status))
    return Run(min(one.seconds for one in done), min(one.processor for one in done), max(one.peak for one in done), 0, done[-1].output)


def measure(command, runs, given=None, statuses=(0,)):
    """The least time, the peak memory in bytes, and the output of some runs. GIVEN is the file of their input."""
    best = best_of(command, runs, given, statuses)
    return best.seconds, best.peak, best.output


def instructions_of(command, given=None, statuses=(0,)):
    """How many instructions a run takes, as valgrind counts them (the same number each time, however busy the machine
    is), and its output. GIVEN is the file of its input. It has to end with one of these statuses."""
    counting = ["valgrind", "--tool=cachegrind", "--cache-sim=no", "--cachegrind-out-file=/dev/null"]
    with open(given or os.devnull, "rb") as source:
        done = subprocess.run(counting + command, stdin=source, capture_output=True, check=False)
    counted = re.search(rb"I\s+refs:\s+([0-9,]+)", done.stderr)
    if done.returncode not in statuses or not counted:
        sys.exit("%s: status %d under valgrind" % (" ".join(command), done.returncode))
    return int(counted.group(1).replace(b",", b"")), done.stdout
