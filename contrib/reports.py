"""What a run of the gate told, as data."""
import re

BREAK = re.compile(r"break (\S+) (\S+) (\S+) (.*)$")
VERDICT = re.compile(r"judge (\S+): (\w+)$")
SKIPPED = re.compile(r"skipped (old|new) (\S+) ([0-9]+)$")
PLACE = re.compile(r"apigate: (?:old|new) \S+: (.*?):([0-9]+):([0-9]+): ")

# what becomes of a client
KEPT, OUTSIDE, STOPS, BEFORE, REFUSED = "typed still, in profile", "typed still, outside the profile", "stops compiling", "untyped before too", "refused"


class Break:
    """Something that is broken, with all platforms on which it is, its place and the ways that lead to it."""

    def __init__(self, owner, rule, subject):
        self.owner, self.rule, self.subject = owner, rule, subject
        self.platforms, self.place, self.ways = [], None, []

    @property
    def text(self):
        return "%s %s %s" % (self.owner, self.rule, self.subject)

    @property
    def page(self):
        return "docs/rules.md#" + self.rule


class Judged:
    """A run: its status, its report, what it said where it refused, and what can be told besides."""

    def __init__(self, status, report, fault):
        self.status, self.report, self.fault = status, report, fault.strip()
        self.notes = []
        self.lost = [line[1:] for line in report.splitlines() if line.startswith("-")]
        self.new = [line[1:] for line in report.splitlines() if line.startswith("+")]
        self.verdicts = dict(found.groups() for found in map(VERDICT.match, report.splitlines()) if found)
        self.skipped = [(side, platform, int(count)) for side, platform, count in (found.groups() for found in map(SKIPPED.match, report.splitlines()) if found)]
        self.kind, self.version = self.last("class "), self.last("version ")
        self.breaks = self.broken()
        self.places = {}
        self.clients = []

    def last(self, word):
        found = [line[len(word):] for line in self.report.splitlines() if line.startswith(word)]
        return found[-1] if found else None

    def broken(self):
        found = {}
        for line in filter(None, map(BREAK.match, self.report.splitlines())):
            platform, *words = line.groups()
            found.setdefault(tuple(words), Break(*words)).platforms.append(platform)
        return sorted(found.values(), key=lambda each: each.text.encode())

    @property
    def is_refused(self):
        return self.status > 1
