"""The files of frozen lines and of exceptions, and how lines are added to them."""
import os
import sys

import gating

sys.path.append(os.path.join(gating.TOP, "tools"))
import places


def blocks(text):
    """The first comments of a file up to a blank line, and its lines, each with the comments right above it."""
    head, found, above = [], [], []
    for line in text.splitlines():
        if line.startswith("#"):
            above.append(line)
        elif line.strip():
            found.append((line, above))
            above = []
        elif above and not found:
            head, above = head + above + [""], []
        elif above:
            found.append(("", above))
            above = []
    return head, found, above


def added(text, lines, comment=""):
    """A file with these lines too, in the order of bytes; what stands above a line stays there."""
    head, found, below = blocks(text)
    here = {line for line, _ in found}
    found += [(line, [comment] if comment else []) for line in lines if line not in here]
    found.sort(key=lambda each: each[0].encode())
    out = head + [part for line, above in found for part in above + [line] * bool(line)] + below
    return "".join(line + "\n" for line in out)


def read(path):
    try:
        with open(path, encoding="utf-8") as file:
            return file.read()
    except FileNotFoundError:
        return ""


def write(path, lines, what, comment=""):
    """Writes a file anew, with lines that it gets, and tells of it."""
    before = read(path)
    after = added(before, lines, comment)
    if not lines or after == before:
        gating.say("release-gate: %s needs no line more" % gating.shown(path))
        return
    os.makedirs(os.path.dirname(os.path.abspath(path)), exist_ok=True)
    places.put(os.path.realpath(path), after.encode())
    count = len(blocks(after)[1]) - len(blocks(before)[1])
    gating.say("release-gate: wrote %d %s to %s" % (count, what if count > 1 else what.removesuffix("s"), gating.shown(path)))


def keep(asked, judged, features):
    """Writes what is asked for: the new lines to the frozen file, or all where there was none, and the lost ones to the exceptions."""
    if asked["write_api"]:
        path = asked["api"].split(",")[-1]
        lines = judged.new if os.path.exists(path) else features()
        if not lines and not os.path.exists(path):
            raise gating.Stop("%s isn't written: the module exports nothing, and an empty file promises nothing" % gating.shown(path))
        write(path, lines, "new lines")
    if asked["update_except"]:
        version = asked["release"] or judged.version
        write(asked["except"], judged.lost, "lost lines", "# taken back in %s" % version)
