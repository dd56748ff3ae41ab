"""What becomes of clients: packages of other modules that are typed, bodies and all, over the old tree and over the new one."""
import os
import re
import tempfile

import declarations
import gating
from reports import BEFORE, KEPT, OUTSIDE, REFUSED, STOPS

LINE = re.compile(r"client (\S+): (?:(in profile)|(typed outside the profile)|untyped at (.*):([0-9]+):([0-9]+))$", re.S)


class Found:
    """What becomes of one client on some platforms: a kind, the place that isn't typed over the new tree, and reasons."""

    def __init__(self, folder, kind, place, platforms, notes):
        self.folder, self.kind, self.place, self.platforms, self.notes = folder, kind, place, platforms, notes

    @property
    def text(self):
        where = " at %s:%d:%d" % (gating.shown(self.place[0]), *self.place[1:]) if self.place else ""
        return "%s: %s%s (%s)" % (gating.shown(self.folder), self.kind, where, ", ".join(self.platforms))


def told(folder, tree, std, platforms):
    """What is said of a client over a tree on each platform: nothing where it is typed in profile, a place where it isn't, or a text."""
    status, report, fault = gating.told(["vet", "--new", tree, "--client", folder, *gating.common(std, platforms)])
    if status > 1:
        return fault.strip()
    found = {}
    for line in filter(None, map(LINE.match, report.splitlines())):
        found[line[1]] = (line[4], int(line[5]), int(line[6])) if line[4] else line[3]
    return found


def of_one(folder, old, new, room, platforms, explainer):
    """What becomes of one client, platforms of which the same is said together."""
    for name in sorted(os.listdir(folder)) if os.path.isdir(folder) else []:
        path = os.path.join(folder, name)
        if name.endswith(".go") and not os.path.isfile(path):
            raise gating.Stop("%s is no file; nothing was judged" % gating.shown(path))
        if name.endswith(".go") and gating.shown(name) != name:
            raise gating.Stop("%s has a name that doesn't print, and its line could be another one's; nothing was judged" % gating.shown(path))
    if not os.path.isdir(folder):
        raise gating.Stop("%s isn't there: --clients names folders of packages" % gating.shown(folder))
    made = tempfile.mkdtemp(dir=room, prefix="client-")
    std, lines = declarations.of_client(made, platforms, old, new, folder)
    before, after = (told(folder, tree, std, platforms) for tree in (old, new))
    notes = [line for line in lines if line.startswith("fault ")]
    for side in (after, before):
        if isinstance(side, str):
            return [Found(folder, REFUSED, None, platforms.split(","), [side] + notes)]
    found = {}
    for platform in platforms.split(","):
        was, now = before.get(platform), after.get(platform)
        kind = STOPS if isinstance(now, tuple) and not isinstance(was, tuple) else BEFORE if isinstance(now, tuple) else OUTSIDE if now else KEPT
        found.setdefault((kind, now if isinstance(now, tuple) else None), []).append(platform)
    return [Found(folder, kind, place, names, explainer.of_client(folder, std, names[0], kind == OUTSIDE, place) + notes if kind != KEPT else []) for (kind, place), names in found.items()]


def becomes(folders, old, new, room, platforms, explainer):
    """What becomes of all clients."""
    return [each for folder in folders for each in of_one(folder, old, new, room, platforms, explainer)]
