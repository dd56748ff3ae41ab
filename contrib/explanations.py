"""What Go's own packages say about a run: the places of what is broken, the ways to it, and the reason of a refusal. tools/explain asks them."""
import json
import os
import re

import declarations
import gating
import go_command
import modules

REFUSAL = re.compile(r"apigate: (old|new)(?: ([a-z0-9]+-[a-z0-9]+))?: (.*)$", re.S)
AT = re.compile(r"(.*):([0-9]+):([0-9]+): (.*)$", re.S)
MISSING = re.compile(r"fault \S+ imports (\S+): not found(?:; (.*?))?(?: \([a-z0-9 -]+\))?$")
DROPPED = re.compile(r"(?:dropped|replaced) (\S+?): (.*?)(?: \([a-z0-9 -]+\))?$")
NOT_DECLARED = re.compile(r"go/types: (?:undeclared name: )?(\S+) not declared by package (\S+)$")
LIMITS = {"file-bytes": "4,194,304 bytes of a file", "files": "20,000 files", "bytes": "67,108,864 bytes of all files", "packages": "4,096 folders with a file",
          "folders": "65,536 folders"}
PROFILE = "docs/refusals.md has the profile"


class Explainer:
    """Asks tools/explain about the two trees of a run."""

    def __init__(self, room, cut, old, new, platforms):
        self.room, self.cut, self.platforms = room, cut, platforms.split(",")
        self.folders = {"old": old, "new": new}
        self.program = ""

    def ask(self, question, **more):
        if not self.program:
            self.program = declarations.built("explain", self.room, go_command.settings({}))[0]
        asked = {"old": self.folders["old"], "new": self.folders["new"], "std": self.cut.folder, "platforms": self.platforms, **more}
        try:
            ran = gating.within([self.program, question], input=json.dumps(asked), text=True, errors="replace")
        except gating.Stop as stop:
            # what the program said stands
            gating.say("note: tools/explain: %s" % str(stop).removesuffix("; nothing was judged"))
            return None
        if ran.returncode:
            gating.say("note: tools/explain: %s" % gating.shown((ran.stderr.strip().splitlines() or ["it ended with %d" % ran.returncode])[0]))
            return None
        return json.loads(ran.stdout)

    def places(self, judged):
        """Fills in where what is broken or lost is declared, and the ways to it."""
        breaks = [{"owner": each.owner, "rule": each.rule, "subject": each.subject, "platforms": each.platforms} for each in judged.breaks]
        told = self.ask("places", breaks=breaks, lines=judged.lost) if breaks or judged.lost else None
        if told:
            for each, found in zip(judged.breaks, told["breaks"]):
                each.place, each.ways = found["place"], found["ways"]
            judged.places = dict(zip(judged.lost, told["lines"]))

    def notes(self, fault):
        """The notes on a line by which the program refuses."""
        found = REFUSAL.match(fault)
        if not found:
            return []
        side, platform, rest = found.groups()
        if not platform:
            return list(self.of_limit(self.folders[side], rest))
        at = AT.match(rest)
        if at:
            return list(self.of_place(side, platform, at[1], int(at[2]), at[4]))
        file, _, what = rest.rpartition(": ")
        return list(self.of_file(side, platform, file, what))

    def of_client(self, folder, std, platform, is_outside, place):
        """Why a client isn't typed at a place of it, or each step by which it is outside of the profile."""
        where = {"file": place[0], "line": place[1], "column": place[2]} if place else {}
        told = self.ask("outside" if is_outside else "untyped", **{"new": self.folders["new"], "std": std, "platforms": [platform], "client": folder, **where}) or []
        return ["%s: %s" % (each["where"], each["cause"]) for each in told]

    def of_limit(self, folder, rest):
        path, _, name = rest.rpartition(": limit ")
        if name in LIMITS:
            place = os.path.join(folder, path)
            size = "; it has {:,}".format(os.path.getsize(place)) if name == "file-bytes" and os.path.isfile(place) else ""
            yield "at most %s%s" % (LIMITS[name], size)

    def of_file(self, side, platform, file, what):
        if what.startswith("+build"):
            yield "gofmt -w %s adds the go:build line" % gating.shown(file)
        elif what.startswith("not in the grammar"):
            told = self.ask("reasons", **{"new": self.folders[side], "platforms": [platform]}) or []
            found = [each for each in told if each["file"] == file and each["grammar"]]
            for each in found[:3]:
                yield "%s: %s%s%s" % (each["where"], of_name(each), each["cause"], "; " + seen(each) if each["name"] != "-" else "")
            if len(found) > 3:
                yield "%d declarations more of this file aren't in the grammar; contrib/profile-check has them all" % (len(found) - 3)
            if not found:
                yield "Go's parser takes the file, and of the rarer differences docs/DECISIONS.md tells"
        elif what.startswith(("go:build", "two go:build")):
            yield "go vet in the file's folder says what is wrong with its build lines; a carriage return at their end is one"

    def of_place(self, side, platform, file, line, what):
        if what.startswith("declaration has no typing"):
            told = self.ask("depends", **{"new": self.folders[side], "platforms": [platform], "file": file, "line": line})
            if told is None:
                return
            reason = told["reason"]
            if not reason:
                yield "Go's checker types it over these declarations; " + PROFILE
                return
            by = "by %s, " % ", ".join(told["by"]) if told["by"] else ""
            yield "%s: %s%s%s; %s" % (reason["where"], by, of_name(reason) if by else "", self.cause(reason), seen(reason))
        elif what.startswith("import not found"):
            yield from self.of_import(side, file, line)
        else:
            ran = gating.within(["gofmt", "-e", "-l", "--", file], cwd=self.folders[side], text=True, errors="replace")
            yield from ["gofmt: " + gating.shown(each) for each in ran.stderr.splitlines()[:1]]

    def of_import(self, side, file, line):
        text = modules.content(os.path.join(self.folders[side], file)).decode(errors="replace").split("\n")[line - 1]
        path = re.search(r'"([^"]*)"|`([^`]*)`', text)
        path = path and (path[1] or path[2])
        if path == "unsafe":
            yield "what unsafe declares isn't in the profile, as unsafe.Pointer outside of function bodies; " + PROFILE
        elif path:
            mended = [found[2] for found in map(MISSING.match, self.cut.lines) if found and found[1] == path and found[2]]
            yield "%s: %s" % (path, mended[0] if mended else "it isn't at hand, or nothing of it is in the profile; " + PROFILE)

    def cause(self, reason):
        """A cause in words, with why the cutter left something out where that is it."""
        missing = NOT_DECLARED.match(reason["cause"])
        if not missing:
            return reason["cause"]
        for line in filter(None, map(DROPPED.match, self.cut.lines)):
            if line[1].split("/")[-1].endswith(".".join((missing[2], missing[1]))) or line[1].endswith("." + missing[1]):
                return "%s isn't in the profile: %s" % (line[1], line[2])
        return reason["cause"]


def of_name(reason):
    return "" if reason["name"] == "-" else reason["name"] + ", "


def seen(reason):
    if reason["seen"] == "exported":
        return "it is exported"
    return "%s depends on it" % reason["seen"] if reason["seen"] else "nothing exported depends on it"
