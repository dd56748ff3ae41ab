"""The crates of this repository: what stands on what, what a proof of one reads, and its wrong bodies."""
import glob
import hashlib
import os
import re
import shutil

TOP = os.path.dirname(os.path.dirname(os.path.abspath(__file__)))
READ = ("src", "specs", "proofs")
MADE = ("out", "must-fail")


def lines(top=TOP):
    """Returns each crate's line of crates.txt, by the crate's name."""
    with open(os.path.join(top, "crates.txt"), encoding="utf-8") as file:
        told = [line.partition("#")[0].strip() for line in file]
    return {line.split(":")[0].split()[0]: line for line in told if ":" in line}


def below():
    """Returns, for each crate, the crates of this repository that its line names."""
    told = lines()
    return {name: [it for it in line.partition(":")[2].split() if it in told] for name, line in told.items()}


def needed(names):
    """Returns these crates and all that they stand on, lowest first."""
    stands, found, done = below(), [], set()

    def add(name):
        if name in done:
            return
        done.add(name)
        for it in stands[name]:
            add(it)
        found.append(name)

    for name in names:
        add(name)
    return found


def sources(name, top=TOP):
    """Returns the files that a proof of the crate reads of its own."""
    found = [at + "/" + file for part in READ for at, _, files in os.walk(os.path.join(top, "crates", name, part)) for file in files]
    return sorted(found)


def digests(names, top=TOP):
    """Returns for each of these crates a sum of its own code, definitions and proofs, and of its line in crates.txt."""
    told, found = lines(top), {}
    for name in names:
        total = hashlib.sha256(" ".join(told[name].split()).encode())
        for path in sources(name, top):
            with open(path, "rb") as file:
                total.update(os.path.relpath(path, top).encode() + b"\0" + hashlib.sha256(file.read()).digest())
        found[name] = total.hexdigest()
    return found


def digest(name):
    """Returns the beginning of the crate's sum."""
    return digests([name])[name][:16]


def digest_of(sums):
    """Returns one sum of crates that have these."""
    return hashlib.sha256("".join("%s %s\n" % it for it in sorted(sums.items())).encode()).hexdigest()


def copy(room, names):
    """Copies these crates, without wrong bodies, to a folder that `rt ci` takes for a repository."""
    told = lines()
    for name in names:
        skipped = lambda at, inside, top=os.path.join(TOP, "crates", name): [it for it in inside if at == top and it in MADE]
        shutil.copytree(os.path.join(TOP, "crates", name), os.path.join(room, "crates", name), ignore=skipped)
        # also where nobody may write to the crate itself
        os.chmod(os.path.join(room, "crates", name), 0o755)
    with open(os.path.join(room, "crates.txt"), "w", encoding="utf-8") as file:
        file.write("".join(told[name] + "\n" for name in names))
    shutil.copy(os.path.join(TOP, "HANDLES"), room)
    os.mkdir(os.path.join(room, ".git"))


def edits(name):
    """Returns the files of the crate's wrong bodies: those that the gate tries, and those beside it."""
    return [sorted(glob.glob(os.path.join(TOP, folder, "*.edit"))) for folder in ("crates/%s/must-fail" % name, "wrong-bodies/%s" % name)]


def misfit(path, folder, inside_of):
    """Says why an edit doesn't apply to the files of a folder of these paths, if it doesn't: each `old:` text stands once in its file."""
    with open(path, encoding="utf-8") as file:
        told = file.read().split("\n")
    inside, old, texts, changes = None, None, {}, 0
    for line in told:
        if line.startswith("file: "):
            inside = line[len("file: "):].strip()
            at = os.path.join(TOP, folder, inside)
            if not re.match(inside_of, inside) or not os.path.isfile(at):
                return "there is no file %s" % inside
            if inside not in texts:
                with open(at, encoding="utf-8") as file:
                    texts[inside] = file.read()
        elif line.startswith("old: "):
            old = line[len("old: "):]
            if inside is None:
                return "'old:' before 'file:'"
            if texts[inside].count(old) != 1:
                return "%s stands %d times in %s" % (old.strip()[:60], texts[inside].count(old), inside)
        elif line.startswith("new:"):
            if old is None:
                return "'new:' before 'old:'"
            texts[inside] = texts[inside].replace(old, line[len("new:"):].removeprefix(" "))
            old, changes = None, changes + 1
        elif line:
            return "a line that isn't read: %s" % line[:60]
    return None if changes and old is None else "no pair of 'old:' and 'new:'"
