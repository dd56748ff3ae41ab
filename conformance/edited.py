"""Tries wrong bodies by the functions that they change, over libraries that are built: of a crate at once those that change different
functions, and no others are proved. An edit that gives no answer beside others is tried by itself."""
import os
import re
import shutil
import subprocess
import sys
import tempfile

import repository

# the toolchain whose command `rt` is on the path
TOOLS = os.path.dirname(os.path.dirname(os.path.realpath(shutil.which("rt") or "rt")))
KIT = os.path.join(TOOLS, "rlibs")
FUNCTION = re.compile(r"^( *)(?:pub(?:\([a-z]+\))? )?fn (\w+)", re.M)
IMPL = re.compile(r"^impl\b([^{]*)", re.M)
IMPLEMENTED = re.compile(r" *(?:(?:\w+::)*(\w+)(?:<(.*)>)? for )?(?:\w+::)*(\w+)")
# what a proof file says whose names an edit took away, in a line that may end behind the module's name, and what the compiler says of a text that it
# can't read
NAMES = re.compile(r"(note: )?(\./)?proofs/.*(has no field|is not in scope|has no `|: module `[^`]*`$|was not admitted)")
UNREAD = re.compile(r"(?:\./)?(src|specs)/\S+:\d+:\d+: error: (?!`[^`]*`: )")
PLACE = re.compile(r"(?:note: )?(?:\./)?(\S+?):(\d+):\d+:")


def pairs(path):
    """The file, the old and the new text of each change of an edit."""
    found, inside, old = [], None, None
    with open(path, encoding="utf-8") as file:
        for line in file.read().split("\n"):
            if line.startswith("file: "):
                inside = line[len("file: "):].strip()
            elif line.startswith("old: "):
                old = line[len("old: "):]
            elif line.startswith("new:"):
                found.append((inside, old, line[len("new:"):].removeprefix(" ")))
    return found


def implemented(head):
    """The type that an `impl` is for, by its text behind this word; of a trait the prover names the type with the trait behind it, and what that is of."""
    depth, at = 0, 0
    for at, sign in enumerate(head.replace("->", "--")):
        depth += (sign == "<") - (sign == ">")
        if depth == 0:
            break
    trait, of, name = IMPLEMENTED.match(head, at + 1 if head.startswith("<") else 0).groups()
    return name + (trait or "") + "".join(re.findall(r"(?<!')\b\w+", of or ""))


def function_at(file, text, end):
    """The end of the name of the function that stands before this place of a source, or nothing."""
    module = re.sub(r"^(lib|main)$", "", file[len("src/"):-len(".rt")].replace("/", "::"))
    found = list(FUNCTION.finditer(text, 0, end))
    if not found:
        return ""
    types = list(IMPL.finditer(text, 0, found[-1].start())) if found[-1][1] else []
    return "::".join(it for it in (implemented(types[-1][1]) if types else module, found[-1][2]) if it)


class Crate:
    def __init__(self, name, libraries):
        self.name, self.folder = name, os.path.join(repository.TOP, "crates", name)
        place = lambda it: next(at for at in (os.path.join(libraries, it + ".rlib"), os.path.join(KIT, it + ".rlib")) if os.path.isdir(at))
        below = repository.lines()[name].partition(":")[2].split()
        root = "src/main.rt" if os.path.isfile(os.path.join(self.folder, "src/main.rt")) else "src/lib.rt"
        self.command = [os.path.join(TOOLS, "bin/rattle"), "check", "--crate-name", name, root, "--extern", "std=%s/std.rlib" % KIT]
        self.command += [word for it in below for word in ("--extern", "%s=%s" % (it, place(it)))]
        self.command += ["-L", "dependency=" + libraries, "-L", "dependency=" + KIT, "--jobs", "1", "--logic-built", TOOLS + "/logic_built"]
        self.command += ["--antt-project", TOOLS + "/rattle/logic/antt-project.json"]
        self.edits = {os.path.basename(path)[:-len(".edit")]: pairs(path) for paths in repository.edits(name) for path in paths}

    def source(self, file):
        with open(os.path.join(self.folder, file), encoding="utf-8") as told:
            return told.read()

    def functions(self, edit):
        found = []
        for file, old, _ in self.edits[edit]:
            text = self.source(file)
            if old in text and file.startswith("src/"):
                found.append(function_at(file, text, text.index(old) + len(old)))
        return sorted(set(found))

    def groups(self):
        """The edits, in groups whose edits change different functions."""
        groups = []
        for edit in sorted(self.edits):
            mine = set(self.functions(edit))
            apart = lambda group: "" not in mine and not any(mine & set(self.functions(other)) or "" in self.functions(other) for other in group)
            group = next(filter(apart, groups), None)
            groups.append([edit]) if group is None else group.append(edit)
        return groups

    def check(self, edits):
        """The texts with these edits, and the lines that the prover says of the functions that they change."""
        texts = {}
        for edit in edits:
            for file, old, new in self.edits[edit]:
                text = texts.get(file) or self.source(file)
                if text.count(old) != 1:
                    return None, []
                texts[file] = text.replace(old, new)
        only = sorted({it for edit in edits for it in self.functions(edit)})
        with tempfile.TemporaryDirectory(prefix="edited-") as room:
            for part in repository.READ:
                if os.path.isdir(os.path.join(self.folder, part)):
                    shutil.copytree(os.path.join(self.folder, part), os.path.join(room, part))
            for file, text in texts.items():
                with open(os.path.join(room, file), "w", encoding="utf-8") as told:
                    told.write(text)
            # what stands in no function may matter to all
            words = self.command + [word for it in only if "" not in only for word in ("--only", it)]
            ran = subprocess.run(words, cwd=room, stdin=subprocess.DEVNULL, stdout=subprocess.PIPE, stderr=subprocess.STDOUT, errors="replace", text=True)
        return texts, ran.stdout.splitlines()

    def judged(self, edit, texts, lines):
        """What came of an edit, and why."""
        if not any(re.match(r"only=\d+ proved=\d+|logic=", line) for line in lines):
            return "not judged", "it doesn't compile: " + next((line for line in lines if re.search(r"\berror\b", line)), lines[-1] if lines else "no answer")
        mine = self.functions(edit)
        told = [line for line in lines if PLACE.match(line) and (": error" in line or line.startswith("note: "))]
        told = [line for line in told if "note: large solution" not in line and any(not it or self.is_about(line, it, texts) for it in mine)]
        unread = next((line for line in told if UNREAD.match(line)), None)
        if unread:
            return "not judged", unread
        first = next((line for line in told if not NAMES.match(line)), None)
        if first:
            return "refused", first
        if told:
            return "not judged", "only a proof file fails: " + told[0]
        # a function without a proof file, of a goal of which only the search speaks
        open_goal = next((line for line in lines for it in mine if re.match(r"fn %s::(?:\w+::)*%s: .*`search` did not prove" % (self.name, it), line)), None)
        if open_goal:
            return "refused", open_goal
        # where the borrow checker doesn't cover a function, no goal of it is there to fail
        counts = next(filter(None, (re.match(r"only=(\d+) proved=(\d+)", line) for line in lines)), None)
        if counts and counts[1] != counts[2]:
            return "not judged", next((line for line in lines if re.match(r"fn \S+: (no proof|not proved)", line)), counts[0])
        return "proved", "no goal fails of what it changes"

    def is_about(self, line, function, texts):
        # of functions that call one another the goals begin with the function's name, as what a call requires does with that of the called one
        if re.search(r"`%s-(?!(\w+-)?requires)" % function.rpartition("::")[2], line):
            return True
        file, number = PLACE.match(line).groups()
        if file.startswith("src/"):
            text = texts.get(file) or self.source(file)
            lines, at = text.split("\n"), int(number)
            # a function's attributes stand before it
            while lines[at - 1].lstrip().startswith("#[") and at < len(lines):
                at += 1
            return function_at(file, text, sum(len(it) + 1 for it in lines[:at])) == function
        # a folder of functions that call one another has a plus before its name, which is that of one of them or of their cycle
        parts = file[len("proofs/"):].split("/")
        cycle = next((it[1:] for it in parts if it.startswith("+")), None)
        if cycle and re.search(r"#\[cycle\(%s\)\]\s*(?:#\[[^\n]*\]\s*)*(?:pub(?:\([a-z]+\))? )?fn %s\b" % (re.escape(cycle), function.rpartition("::")[2]), self.module(function, texts)):
            return True
        return "::%s::" % function in "::" + "::".join(it.removeprefix("+") for it in parts)

    def module(self, function, texts):
        """The source of a function's module, or of the root where that isn't a file."""
        inside = function.rpartition("::")[0].replace("::", "/")
        file = next((it for it in ("src/%s.rt" % inside, "src/%s/mod.rt" % inside, "src/lib.rt") if os.path.isfile(os.path.join(self.folder, it))), None)
        return (texts.get(file) or self.source(file)) if file else ""

    def tried(self):
        """What came of each edit."""
        found = {}
        for group in self.groups():
            texts, lines = self.check(group)
            for edit in group:
                kind, why = self.judged(edit, texts, lines) if texts else ("not judged", "it doesn't apply")
                if kind != "refused" and len(group) > 1:
                    kind, why = self.judged(edit, *self.check([edit]))
                found[self.name, edit] = kind, why
                print("%s: %s/%s" % (kind, self.name, edit), file=sys.stderr, flush=True)
        return found
