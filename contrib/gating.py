"""What the recipes have in common: how programs are run, and within which limits, versions, why nothing was judged, and how a run ends."""
import collections
import contextlib
import os
import re
import resource
import signal
import stat
import subprocess
import sys

TOP = os.path.dirname(os.path.dirname(os.path.abspath(__file__)))
sys.path.append(os.path.join(TOP, "tools"))
import bounds

PROGRAM = os.path.join(TOP, "apigate")
NUMBER = "(0|[1-9][0-9]*)"
RELEASE = re.compile(r"v?%s\.%s\.%s$" % (NUMBER, NUMBER, NUMBER))
REFUSED = 3
# the program that runs, once it is known, and what has begun to look for it
found, early = "", None
# what each program that reads a module may take: of the clock, and of data
Limits = collections.namedtuple("Limits", "seconds megabytes")
limits = Limits(600, 4096)
MOST = 1_000_000
# how many threads the program may use: those of the processors that are at hand, as far as that gains something
MOST_WORKERS = 64
workers = min(len(os.sched_getaffinity(0)), 8) if hasattr(os, "sched_getaffinity") else 1
# the signals by which a user ends a run
HELD = {signal.SIGINT, signal.SIGTERM}
# what stands behind the name of a program that was built or unpacked
BUILT = re.compile("-([0-9a-f]{16}|linux-amd64)$")


class Stop(Exception):
    """Why nothing was judged, and the status to end with."""

    def __init__(self, what, status=REFUSED):
        super().__init__(what)
        self.status = status


class Refused(Exception):
    """What the program says of a tree that it refuses."""

    def __init__(self, status, fault):
        super().__init__(fault)
        self.status, self.fault = status, fault


def numbers(version):
    """The three numbers of a release, or None for what is none."""
    release = RELEASE.match(version)
    return tuple(int(number) for number in release.groups()) if release else None


def shown(text):
    """A name on one line: what doesn't print is written as Python writes it."""
    return "".join(each if each.isprintable() else each.encode("unicode_escape", "backslashreplace").decode() for each in text)


def say(text):
    """Writes a line on standard error."""
    print(text, file=sys.stderr, flush=True)


def add_limits(parser):
    """The words that say what a module of others may take."""
    whole = dict(type=count, metavar="N")
    parser.add_argument("--seconds", default=limits.seconds, help="how long each program that reads the module may take; %d where it isn't given" % limits.seconds, **whole)
    parser.add_argument("--megabytes", default=limits.megabytes, help="how much data it may hold; %d where it isn't given" % limits.megabytes, **whole)
    parser.add_argument("--workers", default=workers, type=threads, metavar="N", help="how many threads apigate uses, from 1 to %d; as many as there are processors, and at most 8, where it isn't given. What is printed doesn't depend on it" % MOST_WORKERS)


def count(text):
    """A number of seconds or megabytes; what else stands there is a ValueError."""
    if not 1 <= int(text) <= MOST:
        raise ValueError(text)
    return int(text)


def threads(text):
    """A number of threads; what else stands there is a ValueError."""
    if not 1 <= int(text) <= MOST_WORKERS:
        raise ValueError(text)
    return int(text)


def limit(seconds, megabytes, many):
    """Sets the limits, that of data also for this script, which reads files of the module too, and the number of threads."""
    global limits, workers
    limits, workers = Limits(seconds, megabytes), many
    most = resource.getrlimit(resource.RLIMIT_DATA)[1]
    resource.setrlimit(resource.RLIMIT_DATA, (bounds.least(megabytes << 20, most), most))


def unlimited():
    """Takes back what limit() set for this script."""
    most = resource.getrlimit(resource.RLIMIT_DATA)[1]
    resource.setrlimit(resource.RLIMIT_DATA, (most, most))


def within(words, **how):
    """Runs a program within the limits, with nothing to read but what it is given, and keeps what it says. Where it is ended for them, nothing was judged."""
    name = BUILT.sub("", os.path.basename(words[0]))

    def before():
        # a group of its own, so that what it runs itself ends with it
        os.setpgrp()
        bounds.bound(limits.megabytes << 20)
        resource.setrlimit(resource.RLIMIT_CORE, (0, 0))
        for each in HELD:
            signal.signal(each, signal.SIG_DFL)
        signal.pthread_sigmask(signal.SIG_UNBLOCK, HELD)

    given = how.pop("input", None)
    source = subprocess.DEVNULL if given is None else subprocess.PIPE
    # until the program is there these wait, since Python would tell of one in the process that becomes it
    signal.pthread_sigmask(signal.SIG_BLOCK, HELD)
    try:
        with subprocess.Popen(words, stdin=source, stdout=subprocess.PIPE, stderr=subprocess.PIPE, preexec_fn=before, **how) as ran:
            try:
                signal.pthread_sigmask(signal.SIG_UNBLOCK, HELD)
                ended = subprocess.CompletedProcess(words, 0, *ran.communicate(given, timeout=limits.seconds))
            except BaseException as error:
                with contextlib.suppress(ProcessLookupError):
                    os.killpg(ran.pid, signal.SIGKILL)
                if not isinstance(error, subprocess.TimeoutExpired):
                    raise
                raise Stop("%s took more than %d seconds, and was ended; nothing was judged" % (name, limits.seconds)) from None
            ended.returncode = ran.returncode
    finally:
        signal.pthread_sigmask(signal.SIG_UNBLOCK, HELD)
    if ended.returncode < 0:
        raise Stop("%s was ended by signal %d; nothing was judged" % (name, -ended.returncode))
    return ended


def check_module(folder):
    """Refuses a tree whose go.mod is a link, a fifo or a device: it would be read where it leads."""
    path = os.path.join(folder, "go.mod")
    if os.path.lexists(path) and not stat.S_ISREG(os.lstat(path).st_mode):
        raise Stop("%s is no file; nothing was judged" % shown(path))


def begin():
    """Begins to look whether the program stands ready, while other things are read."""
    global early
    sys.path.append(os.path.join(TOP, ".ci"))
    try:
        import remembered
        import repository
        early = remembered.Early(repository.needed(["apigate"]))
    except (ImportError, OSError):
        pass


def at_hand():
    """The program itself where it stands ready, so that the launcher needn't look at all sources at each run; else nothing."""
    sys.path.append(os.path.join(TOP, ".ci"))
    try:
        import building
        import delivered
        import remembered
        import repository
    except ImportError:
        return ""
    sums = remembered.digests(repository.needed(["apigate"]), early)
    try:
        return building.current(repository.digest_of(sums)) or delivered.program(sums, lambda text: say("apigate: " + text))
    except (delivered.Unfit, OSError):
        return ""


def ready():
    """Returns the program; the launcher builds it where it isn't ready, and tells of it."""
    global found
    if not found:
        found = at_hand()
    if not found:
        # without limits: a proof takes hours, and reads no module
        tried = subprocess.run([PROGRAM, "make", "--seed", "1", "--size", "1"], stdin=subprocess.DEVNULL, stdout=subprocess.DEVNULL, preexec_fn=unlimited, check=False)
        if tried.returncode:
            raise Stop("the program can't be run", tried.returncode)
        found = PROGRAM
    return found


def told(words):
    """Runs the program with these words, and returns its status, its report and its line on standard error."""
    ran = within([ready(), *words])
    return ran.returncode, ran.stdout.decode(), ran.stderr.decode(errors="replace")


def common(std, platforms):
    """The words of each mode that reads trees."""
    return ["--std", std, "--platforms", platforms, "--workers", str(workers)]


def promised(std, platforms, old):
    """The features of the old tree; raises what ends the run where they can't be told."""
    status, report, fault = told(["features", "--new", old, *common(std, platforms)])
    if status:
        # what is new to this run is the old tree
        raise Refused(status, fault.replace("apigate: new", "apigate: old", 1))
    return report


def gate(room, std, platforms, old, new, api, exceptions, version, promises=promised):
    """Runs the gate; without files of frozen lines the features of the old tree are the promises. Returns its status, report and line on
    standard error."""
    if not api:
        api = os.path.join(room, "api.txt")
        try:
            report = promises(std, platforms, old)
        except Refused as refused:
            return refused.status, "", refused.fault
        with open(api, "w", encoding="utf-8") as file:
            file.write(report)
    words = ["gate", "--old", old, "--new", new, *common(std, platforms), "--api", api, "--version", version]
    return told(words + (["--except", exceptions] if exceptions else []))


def advised(report):
    """The version that a report of the gate advises."""
    lines = [line for line in report.splitlines() if line.startswith("version ")]
    return lines[-1][len("version "):] if lines else None


def main(run):
    """Ends with the status of run(), or with that of what stopped it."""
    signal.signal(signal.SIGTERM, lambda *_: sys.exit(128 + signal.SIGTERM))
    try:
        status = run()
        sys.stdout.flush()
    except Stop as stop:
        say("%s: %s" % (os.path.basename(sys.argv[0]), stop))
        status = stop.status
    except KeyboardInterrupt:
        status = 128 + signal.SIGINT
    except BrokenPipeError:
        # or else the interpreter tries once more
        os.dup2(os.open(os.devnull, os.O_WRONLY), sys.stdout.fileno())
        status = 5
    except OSError as error:
        say("%s: %s" % (os.path.basename(sys.argv[0]), shown(str(error))))
        status = 4
    except MemoryError:
        status = 6
        say("%s: out of memory; nothing was judged" % os.path.basename(sys.argv[0]))
    except Exception as error:
        # where it isn't caught, the interpreter ends with the status of a verdict
        say("%s: %s: %s" % (os.path.basename(sys.argv[0]), type(error).__name__, shown(str(error))))
        status = REFUSED
    sys.exit(status)
