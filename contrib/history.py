"""A git repository: its releases, and the files of a commit. Nothing of it is changed."""
import functools
import itertools
import os
import re

import gating

# what Go's own commands read of a module besides its Go files
KEPT = {"go.mod", "go.sum", "go.work", "go.work.sum", "modules.txt"}
MAJOR = re.compile(r"(?:/|\.)v([0-9]+)$")


def git(folder, *words, given=b"", **more):
    """Runs git in a folder; where a hook runs this, what it says of its own repository doesn't count."""
    settings = {name: value for name, value in os.environ.items() if not name.startswith("GIT_")}
    try:
        ran = gating.within(["git", "-C", folder, *words], input=given, env={**settings, **more, "LC_ALL": "C"})
    except FileNotFoundError as error:
        raise gating.Stop("git isn't installed") from error
    if ran.returncode:
        lines = ran.stderr.decode(errors="replace").strip().splitlines() or ["it ended with %d" % ran.returncode]
        raise gating.Stop("git %s: %s" % (words[0], gating.shown(lines[0])))
    return ran.stdout


def line(folder, *words):
    return os.fsdecode(git(folder, *words)).removesuffix("\n")


class Repository:
    """The repository in which a folder stands."""

    def __init__(self, folder):
        self.folder = folder
        both = os.fsdecode(git(folder, "rev-parse", "--show-toplevel", "--show-prefix")).split("\n")
        if len(both) != 3:
            # a name with a newline
            both = [line(folder, "rev-parse", word) for word in ("--show-toplevel", "--show-prefix")]
        self.top, self.prefix = both[:2]
        self.tags_below = functools.cache(self.tags_below)

    def commit(self, revision):
        """The commit that a revision names."""
        try:
            return line(self.top, "rev-parse", "--verify", "--quiet", "--end-of-options", revision + "^{commit}")
        except gating.Stop:
            return None

    @functools.cached_property
    def status(self):
        """The commit of HEAD, or nothing where there is none yet, and how many Go files of the folder aren't as there."""
        told = git(self.folder, "status", "--porcelain=v2", "--branch", "--no-ahead-behind", "-z", "--", "*.go", "go.mod").split(b"\0")[:-1]
        heads = list(itertools.takewhile(lambda each: each.startswith(b"# "), told))
        head = next((each.split()[-1].decode() for each in heads if each.startswith(b"# branch.oid ")), "")
        return "" if head == "(initial)" else head, len(told) - len(heads)

    def changed(self):
        """How many Go files of the folder aren't as at HEAD."""
        return self.status[1]

    def tags_below(self, commit):
        """The tags at or below a commit: of each the objects that it names, itself and what it is a tag of, and the commit, where that is known."""
        form = "%(refname:strip=2)%00%(objecttype)%00%(objectname)%00%(*objecttype)%00%(*objectname)"
        found = {}
        for row in git(self.top, "for-each-ref", "--merged", commit, "--format", form, "refs/tags").splitlines():
            tag, kind, itself, kind_below, below = map(os.fsdecode, row.split(b"\0"))
            found[tag] = {itself, below}, itself if kind == "commit" else below if kind_below == "commit" else ""
        return found

    def commit_of_tag(self, tag, below):
        """The commit that a tag below another commit names."""
        return self.tags_below(below)[tag][1] or self.commit("refs/tags/" + tag)

    def tag_prefix(self, module):
        """What stands in front of a version in the tags of the module in this folder."""
        major = MAJOR.search(module)
        if major and self.prefix.rstrip("/").split("/")[-1] == "v" + major[1]:
            return self.prefix.rstrip("/")[: -len(major[1]) - 1]
        return self.prefix

    def releases(self, module, below="HEAD"):
        """The tags of releases at or below a commit, those of the module's own major number where there are some, from the greatest down."""
        prefix = self.tag_prefix(module)
        tags = [tag for tag in self.tags_below(below) if tag.startswith(prefix)]
        found = {tag: gating.numbers(tag[len(prefix):]) for tag in tags if gating.numbers(tag[len(prefix):])}
        major = MAJOR.search(module)
        own = [tag for tag in found if (found[tag][0] == int(major[1]) if major else found[tag][0] < 2)]
        return sorted(own or found, key=found.get, reverse=True)

    def last_release(self, module, commit=""):
        """The tag of the last release below a commit, or below HEAD with what has changed since: a tag of the commit itself, or of HEAD where
        nothing has changed, is what is to be released."""
        head, changed = self.status
        if not head:
            raise gating.Stop("the repository has no commit")
        tags, here = self.releases(module, commit or head), set()
        if commit or not changed:
            here = {tag for tag, (objects, _) in self.tags_below(commit or head).items() if (commit or head) in objects}
        below = [tag for tag in tags if tag not in here]
        if below:
            return below[0]
        if tags:
            raise gating.Stop("%s, which is to be released, is the first release: nothing was promised before; --old %s judges it against itself" % ((gating.shown(tags[0]),) * 2))
        if line(self.top, "rev-parse", "--is-shallow-repository") == "true":
            raise gating.Stop("no tag of a release below HEAD, and the clone is shallow: git fetch --tags --unshallow, or in a job fetch-depth: 0")
        raise gating.Stop("no tag %svN.N.N of a release below HEAD: name what was released last, as --old REVISION --version V"
                          % gating.shown(self.tag_prefix(module)))

    def stored(self, *words, given=b""):
        """What git says of objects as they are: a commit has the same files always, whatever stands in for one."""
        return git(self.top, *words, given=given, GIT_NO_REPLACE_OBJECTS="1")

    def files(self, commit, below):
        """The paths and blobs of the Go files and what Go reads besides of a folder at a commit, but for tests."""
        tree = "%s:%s" % (commit, below.rstrip("/")) if below else commit
        for entry in self.stored("ls-tree", "-r", "-z", tree).split(b"\0"):
            head, _, path = entry.partition(b"\t")
            path, name = os.fsdecode(path), os.fsdecode(path).split("/")[-1]
            if head.startswith(b"100") and (name in KEPT or name.endswith(".go") and not name.endswith("_test.go")):
                if {"", ".", ".."} & set(path.split("/")):
                    # git itself never makes such a tree, and would not check it out
                    raise gating.Stop("%s has a file named %s; nothing was judged" % (commit[:12], gating.shown(path)))
                yield path, head.split()[2]

    def is_other(self, commit, path):
        """Whether something else than a file stands at a path of a commit, as a link."""
        return self.stored("ls-tree", "-z", commit, "--", path)[:3] not in (b"", b"100")

    def text(self, commit, path):
        """A file of a commit, or None."""
        try:
            return self.stored("cat-file", "blob", "%s:%s" % (commit, path)).decode(errors="replace")
        except gating.Stop:
            return None

    def write(self, commit, below, folder):
        """Writes the files of a folder at a commit, byte for byte as they were committed."""
        found = list(self.files(commit, below))
        given = b"".join(blob + b"\n" for _, blob in found)
        contents, at = self.stored("cat-file", "--batch", given=given), 0
        for path, blob in found:
            end = contents.index(b"\n", at)
            size = int(contents[at:end].split()[2])
            place = os.path.join(folder, path)
            os.makedirs(os.path.dirname(place), exist_ok=True)
            with open(place, "wb") as file:
                file.write(contents[end + 1:end + 1 + size])
            at = end + 1 + size + 1
        os.makedirs(folder, exist_ok=True)


@functools.cache
def around(folder):
    """The repository of a folder, or None; it is looked for once."""
    try:
        return Repository(folder)
    except gating.Stop as stop:
        if "not a git repository" in str(stop) or "isn't installed" in str(stop) or "must be run in a work tree" in str(stop):
            return None
        raise
