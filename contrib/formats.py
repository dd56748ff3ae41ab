"""The forms of a report: as the program wrote it, GitHub's annotations, JSON, SARIF 2.1.0 and JUnit."""
import hashlib
import json
import os
import re
import sys
import types

import gating
import reports

COLOURS = {"-": "31", "+": "32", "break": "1;31", "class": "1", "version": "1"}
# what a text of XML may hold
BARRED = "[^\t\n\r\x20-\ud7ff\ue000-\ufffd\U00010000-\U0010ffff]"
RULE = r"(?ms)^## `([a-z-]+)`\n\n(.*?)(?:\n\n|\Z)"
MEND = r"(?ms)^To mend it, (.*?)(?:\n\n|\Z)"


def rules():
    """The rules of docs/rules.md: for each what it says, and how one's API is mended."""
    with open(os.path.join(gating.TOP, "docs", "rules.md"), encoding="utf-8") as file:
        text = file.read()
    found = {}
    for part in re.split(r"(?m)^(?=## )", text):
        rule, mend = re.match(RULE, part), re.search(MEND, part)
        if rule:
            found[rule[1]] = (" ".join(rule[2].split()), " ".join(mend[1].split()) if mend else "")
    found["promise"] = ("A line of an earlier release is among the features still.", "keep what the line says, or add it to the file of exceptions")
    return found


def where_told(place):
    return "%s:%d:%d%s" % (gating.shown(place["file"]), place["line"], place["column"], " of the old tree" if place["tree"] == "old" else "")


def told(broken):
    """A break in words."""
    found = "%s: %s%s" % (broken.rule, broken.owner, "" if broken.subject == "-" else ": " + broken.subject)
    if broken.ways and broken.ways != ["by its declaration"]:
        found += " (" + "; ".join(broken.ways) + ")"
    return found + " [%s]" % ", ".join(broken.platforms)


def left_out(side, platform, count):
    """How many declarations of a tree were left out, in words."""
    return "%d declaration%s of the %s tree left out on %s, which no other module sees" % (count, "s" if count > 1 else "", side, platform)


class Run:
    """What was judged: the sides, the platforms, the declarations, and where the new tree stands in its repository."""

    def __init__(self, old, new, cut, judged, prefix):
        self.old, self.new, self.cut, self.judged, self.prefix = old, new, cut, judged, prefix

    def file(self, place):
        """The file and line to show for a place: that of the new tree, or where the object is gone, where it stood."""
        if not place:
            return self.prefix + "go.mod", 1
        if place["tree"] == "new":
            return self.prefix + place["file"], place["line"]
        if os.path.isfile(os.path.join(self.new.folder, place["file"])):
            return self.prefix + place["file"], 1
        return self.prefix + "go.mod", 1

    def findings(self):
        """Each break and each lost line: the rule, a text, a place, and what it's known by."""
        for each in self.judged.breaks:
            text = told(each)
            if each.place and each.place["tree"] == "old":
                text += ", declared at %s" % where_told(each.place)
            yield each.rule, text, each.place, each.text
        for line in self.judged.lost:
            place = self.judged.places.get(line)
            text = "promise lost: " + line
            if place and place["tree"] == "old":
                text += ", declared at %s" % where_told(place)
            yield "promise", text, place, line

    def refusal(self):
        """The file and line that a refusal names, as shown."""
        found = reports.PLACE.match(self.judged.fault)
        return (self.prefix + found[1], int(found[2])) if found and not self.judged.fault.startswith("apigate: old") else (self.prefix + "go.mod", 1)


def coloured(line):
    word = line.split(" ")[0]
    if word == "judge":
        colour = "31" if line.endswith(": incompatible") else "32"
    else:
        colour = COLOURS.get(word) or COLOURS.get(line[:1])
    return "\033[%sm%s\033[m" % (colour, line) if colour else line


def text(run, colours, places):
    """The report as it is, and under it what is asked for besides."""
    report = run.judged.report
    if colours:
        report = "".join(coloured(line) + "\n" for line in report.splitlines())
    if places and run.judged.breaks:
        report += "\nplaces\n"
        for each in run.judged.breaks:
            report += "%s (%s)\n" % (each.text, ", ".join(each.platforms))
            report += "    %s\n" % (where_told(each.place) if each.place else "not found in either tree")
            report += "".join("    %s\n" % way for way in each.ways)
    if run.judged.clients:
        report += "\nclients\n"
        for each in run.judged.clients:
            report += "%s\n" % each.text + "".join("    %s\n" % note for note in each.notes)
    return report


def escaped(value, more=""):
    """A value of one of GitHub's commands; more is what its properties escape besides."""
    for each in "%\r\n" + more:
        value = value.replace(each, "%%%02X" % ord(each))
    return value


def command(kind, file, line, title, message):
    words = "file=%s,line=%d,title=%s" % (escaped(file, ":,"), line, escaped(title, ":,"))
    return "::%s %s::%s\n" % (kind, words, escaped(message))


def github(run):
    """The report, and a command for each finding, which GitHub shows at its line."""
    out = run.judged.report
    for rule, message, place, _ in run.findings():
        file, line = run.file(place)
        out += command("error", file, line, "apigate " + rule, message)
    for each in run.judged.clients:
        if each.kind != reports.KEPT:
            out += "::%s title=apigate client::%s\n" % ("error" if each.kind == reports.STOPS else "warning", escaped("\n".join([each.text] + each.notes)))
    if run.judged.is_refused:
        out += command("error", *run.refusal(), "apigate", "\n".join([run.judged.fault] + run.judged.notes))
    elif run.judged.version:
        out += "::notice title=apigate::class %s, at least version %s\n" % (run.judged.kind, run.judged.version)
    return out


def of_side(side):
    return {"tree": side.told, "version": side.version or None}


def in_json(run):
    """One object with all that was found."""
    judged, known = run.judged, rules()

    def broken(each):
        return {"owner": each.owner, "rule": each.rule, "subject": each.subject, "platforms": each.platforms, "place": each.place, "ways": each.ways,
                "page": each.page, "says": known.get(each.rule, ("", ""))[0]}

    platforms = [{"platform": name, "verdict": verdict, "breaks": [
        {"owner": each.owner, "rule": each.rule, "subject": each.subject, "place": each.place, "page": each.page} for each in judged.breaks if name in each.platforms]}
        for name, verdict in judged.verdicts.items()]
    made = {"module": run.new.module, "old": of_side(run.old), "new": of_side(run.new), "go": run.cut.go, "status": judged.status,
            "refused": judged.fault if judged.is_refused else None, "notes": judged.notes, "platforms": platforms, "breaks": [broken(each) for each in judged.breaks],
            "lost": judged.lost, "new_lines": judged.new, "skipped": [{"tree": side, "platform": name, "declarations": count} for side, name, count in judged.skipped],
            "clients": [{"client": each.folder, "becomes": each.kind, "place": dict(zip(("file", "line", "column"), each.place)) if each.place else None,
                         "platforms": each.platforms, "notes": each.notes} for each in judged.clients],
            "class": judged.kind, "version": judged.version}
    return json.dumps(made, indent=2, ensure_ascii=False) + "\n"


def location(run, place):
    file, line = run.file(place)
    return [{"physicalLocation": {"artifactLocation": {"uri": uri(file), "uriBaseId": "%SRCROOT%"}, "region": {"startLine": line}}}]


def uri(path):
    """A path as a relative reference of a URI."""
    safe = "ABCDEFGHIJKLMNOPQRSTUVWXYZabcdefghijklmnopqrstuvwxyz0123456789-._~/"
    return "".join(chr(each) if chr(each) in safe else "%%%02X" % each for each in os.fsencode(path))


def sarif(run):
    """A log of SARIF 2.1.0 with what GitHub's code scanning reads."""
    known = rules()
    used = sorted({rule for rule, *_ in run.findings()})
    described = [{"id": rule, "shortDescription": {"text": known[rule][0]}, "help": {"text": "To mend it, " + known[rule][1]},
                  "defaultConfiguration": {"level": "error"}, "properties": {"page": "docs/rules.md#" + rule}} for rule in used]
    results = [{"ruleId": rule, "ruleIndex": used.index(rule), "level": "error", "message": {"text": message}, "locations": location(run, place),
                "partialFingerprints": {"finding/v1": hashlib.sha256((rule + " " + key).encode()).hexdigest()}} for rule, message, place, key in run.findings()]
    notes = [{"level": "note", "message": {"text": note}} for note in run.judged.notes + [left_out(*each) for each in run.judged.skipped] + ["client " + each.text for each in run.judged.clients]]
    if run.judged.is_refused:
        notes.insert(0, {"level": "error", "message": {"text": run.judged.fault}})
    ended = {"executionSuccessful": not run.judged.is_refused, "exitCode": run.judged.status, "toolExecutionNotifications": notes}
    driver = {"name": "apigate", "rules": described, "properties": {"goRelease": run.cut.go}}
    made = {"$schema": "https://json.schemastore.org/sarif-2.1.0.json", "version": "2.1.0", "runs": [
        {"tool": {"driver": driver}, "automationDetails": {"id": "apigate/%s/" % run.new.module}, "invocations": [ended], "results": results}]}
    return json.dumps(made, indent=2, ensure_ascii=False) + "\n"


def junit(run):
    """A suite for each platform, one for the promises, and one for a refusal."""
    from xml.etree import ElementTree
    top = ElementTree.Element("testsuites", name="apigate")

    def suite(name, cases):
        made = ElementTree.SubElement(top, "testsuite", name=name, tests=str(len(cases)), failures=str(sum(kind == "failure" for _, kind, _ in cases)),
                                      errors=str(sum(kind == "error" for _, kind, _ in cases)))
        for title, kind, message in cases:
            case = ElementTree.SubElement(made, "testcase", classname=run.new.module, name=re.sub(BARRED, "?", title))
            if kind:
                first = message.split("\n")[0]
                ElementTree.SubElement(case, kind, message=re.sub(BARRED, "?", first), type=title.split(" ")[0]).text = re.sub(BARRED, "?", message)

    if run.judged.is_refused:
        suite("apigate", [("judged", "error", "\n".join([run.judged.fault] + run.judged.notes))])
    else:
        for name in run.judged.verdicts:
            broken = [each for each in run.judged.breaks if name in each.platforms]
            suite(name, [("%s %s" % (each.rule, each.owner), "failure", told_at(run, each)) for each in broken] or [("compatible", "", "")])
        if run.judged.clients:
            suite("clients", [("client " + each.text, "failure" if each.kind == reports.STOPS else "", "\n".join([each.text] + each.notes)) for each in run.judged.clients])
        suite("promises", [("promise " + line, "failure", "promise lost: " + line) for line in run.judged.lost] or [("kept", "", "")])
    ElementTree.indent(top)
    return '<?xml version="1.0" encoding="UTF-8"?>\n' + ElementTree.tostring(top, encoding="unicode") + "\n"


def told_at(run, each):
    return told(each) + ("\n%s" % where_told({**each.place, "file": run.prefix + each.place["file"]}) if each.place else "")


def stopped(form, status, why, module):
    """A report where nothing was judged, for those who read it by a program; nothing as text."""
    if form != "text":
        judged = reports.Judged(status, "", why)
        side = types.SimpleNamespace(told="", version="", module=module, folder=".")
        write(Run(side, side, types.SimpleNamespace(go=""), judged, ""), form, False)


def is_coloured():
    return sys.stdout.isatty() and not os.environ.get("NO_COLOR") and os.environ.get("TERM") != "dumb"


def write(run, form, places):
    made = text(run, is_coloured(), places) if form == "text" else {"github": github, "json": in_json, "sarif": sarif, "junit": junit}[form](run)
    sys.stdout.buffer.write(made.encode(errors="surrogateescape"))
    sys.stdout.buffer.flush()
