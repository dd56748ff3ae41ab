"""The two trees of a judgement, each from a revision, a folder or a version in the module cache."""
import os
import re

import cache
import declarations
import gating
import go_command
import history
import modules

VERSIONED = re.compile(r"([^@{}\s]+)@(v[0-9][^@{}\s]*)$")


class Side:
    """A tree: where it stands, how it's told, what module it is, and what release if it is one."""

    def __init__(self, name, room, asked):
        self.name, self.room = name, os.path.join(room, name)
        self.folder = self.told = self.version = self.module = ""
        self.is_copy, self.called, self.commit = False, "the %s tree" % name, ""
        self.notes = []
        self.asked = asked

    def of_folder(self, folder):
        if not os.path.isdir(folder):
            raise gating.Stop("no folder %s" % gating.shown(folder))
        self.folder, self.told = os.path.abspath(folder), gating.shown(folder)
        self.module = modules.path_of(self.folder)
        versioned = VERSIONED.search(os.path.basename(self.folder))
        if versioned and gating.numbers(versioned[2]):
            self.version = versioned[2]

    def of_cache(self, module, version):
        self.folder = modules.cached(module, version)
        self.told, self.module = "%s@%s" % (module, version), modules.path_of(self.folder) or module
        self.version = version if gating.numbers(version) else ""

    def of_commit(self, where, revision, commit, module):
        """A commit; the whole of the repository where the module needs what stands beside it."""
        self.told = gating.shown(revision) + ("" if commit.startswith(revision) else " (commit %s)" % commit[:12])
        self.commit, self.folder = commit, kept(where, commit)
        if not self.folder:
            self.write(where, revision, commit)
        self.module = modules.path_of(self.folder)
        prefix = where.tag_prefix(module)
        if revision.startswith(prefix) and gating.numbers(revision[len(prefix):]):
            self.version = revision[len(prefix):]
        elif not self.version:
            below = where.releases(module, commit)
            self.version = below[0][len(prefix):] if below else ""

    def write(self, where, revision, commit):
        """Writes the files of a commit, and keeps them where nothing but the commit decides about them."""
        if where.is_other(commit, where.prefix + "go.mod"):
            raise gating.Stop("%s:%sgo.mod is no file; nothing was judged" % (gating.shown(revision), gating.shown(where.prefix)))
        text = where.text(commit, where.prefix + "go.mod")
        parents = [where.prefix[: at.start()] for at in re.finditer(r"(?<=/)|^", where.prefix)]
        is_near = modules.near_replaces(text or "")
        whole = where.prefix and (is_near or any(where.text(commit, each + "go.work") for each in parents))
        self.folder = "" if whole or is_near else keep(where, commit)
        if self.folder:
            return
        self.folder, self.is_copy = os.path.join(self.room, "repository", where.prefix.rstrip("/")) if whole else os.path.join(self.room, "module"), True
        if whole:
            where.write(commit, "", os.path.join(self.room, "repository"))
            if not os.path.isdir(self.folder):
                raise gating.Stop("%s has no folder %s" % (gating.shown(revision), gating.shown(where.prefix)))
        else:
            where.write(commit, where.prefix, self.folder)
            modules.follow(self.folder, where.folder)

    def copy(self):
        """Moves over to a copy, where it isn't one yet."""
        if not self.is_copy:
            copy = os.path.join(self.room, "module")
            modules.copied(self.folder, copy)
            self.folder, self.is_copy = copy, True

    def name_module(self, module):
        """Gives the tree a go.mod where it has none, on a copy."""
        if not os.path.isfile(os.path.join(self.folder, "go.mod")):
            self.copy()
            self.module = module
            with open(os.path.join(self.folder, "go.mod"), "w", encoding="utf-8") as file:
                file.write("module %s\n" % module)
            self.notes.append("%s has no go.mod: it is judged as module %s, on a copy" % (self.called, module))

    def mend(self, look):
        """Gives the tree build lines of the new form, on a copy."""
        found = look["old"] if look else modules.old_form(self.folder)
        if found:
            renewed = "" if self.is_copy or not look else self.renewed(look, found)
            if not renewed:
                self.copy()
                modules.renew(self.folder, found)
                declarations.looked.cache_clear()
            self.folder = renewed or self.folder
            self.notes.append("gofmt gave a go:build line to %s of %s, on a copy: %s"
                              % ("a file" if len(found) == 1 else "%d files" % len(found), self.called, modules.names(found)))

    def renewed(self, look, found):
        """A copy with build lines of the new form that is kept, where nothing but the tree and gofmt decides about it; or nothing."""
        command = go_command.found("gofmt")
        if not go_command.is_program(command) or go_command.workspace(self.folder) or modules.near_replaces(modules.text(self.folder, "go.mod")):
            return ""
        name = cache.name_of(self.folder, look["digest"], found, modules.text(self.folder, "go.sum"), command, cache.stamp(command))

        def write(place):
            modules.copied(self.folder, place)
            if declarations.look(self.room, [place])["trees"][0] != look:
                raise gating.Stop("%s changes while it is read; nothing was judged" % gating.shown(self.folder))
            modules.renew(place, found)

        return cache.tree(name) or cache.keep_tree(name, write)


def kept_name(where, commit):
    """What a commit of the module is kept as, or nothing where a workspace counts or a tree in the cache would have one."""
    store = cache.folder("trees")
    if not store or go_command.may_have_workspace(store) or go_command.workspace(where.folder):
        return ""
    return cache.name_of(os.path.realpath(where.top), where.prefix, commit)


def kept(where, commit):
    """The tree of a commit that was kept, or nothing."""
    name = kept_name(where, commit)
    return cache.tree(name) if name else ""


def keep(where, commit):
    """Keeps the tree of a commit, about which nothing else decides; returns where, or nothing."""
    name = kept_name(where, commit)
    return cache.keep_tree(name, lambda place: where.write(commit, where.prefix, place)) if name else ""


def looks(room, *found):
    """What the cutter sees in trees, of each, or None of each where it can't read one; the cut tells of that."""
    try:
        told = declarations.looked(room, tuple(dict.fromkeys(each.folder for each in found)))["trees"]
    except gating.Stop:
        return [None for _ in found]
    return [told[0], told[-1]][:len(found)]


def ambiguous(word, where):
    """Reads a word that names a tree: a folder, or a commit of the repository."""
    is_folder = os.path.isdir(word)
    commit = where.commit(word) if where and not word.startswith((".", "/")) else None
    if is_folder and commit:
        raise gating.Stop("%s is a folder and a revision: write ./%s for the folder, or refs/.. for the revision" % ((gating.shown(word),) * 2))
    if not is_folder and not commit:
        raise gating.Stop("%s is no folder%s" % (gating.shown(word), " and no revision of the repository" if where else ", and no repository is here"))
    return commit


def chosen(side, word, where, module):
    """Fills a side by a word."""
    versioned = VERSIONED.match(word)
    if versioned and not os.path.isdir(word):
        side.of_cache(versioned[1], versioned[2])
        return
    commit = ambiguous(word, where)
    if commit:
        side.of_commit(where, word, commit, module)
    else:
        side.of_folder(word)


def found(folder, asked, room):
    """Returns the old and the new side of what is asked of the module in a folder."""
    if not os.path.isdir(folder):
        raise gating.Stop("no folder %s" % gating.shown(folder))
    where = history.around(folder)
    old, new = Side("old", room, asked["old"]), Side("new", room, asked["new"])
    module = modules.path_of(folder) or modules.path_in_gopath(folder)
    if asked["new"]:
        chosen(new, asked["new"], where, module)
    else:
        new.of_folder(folder)
        changed = where.changed() if where else 0
        if changed:
            new.told += " (changed since HEAD: %d files)" % changed if changed > 1 else " (changed since HEAD: a file)"
    module = new.module or module
    if asked["old"]:
        chosen(old, asked["old"], where, module or modules.path_of(folder))
    elif where and module:
        tag = where.last_release(module, new.commit)
        old.of_commit(where, tag, where.commit("refs/tags/" + tag), module)
    elif where:
        raise gating.Stop("no go.mod in %s: name the folder of a module" % gating.shown(folder))
    else:
        raise gating.Stop("%s is in no git repository: name the old tree, as --old DIR --version V or --old %s@V" % (gating.shown(folder), module or "MODULE"))
    module = module or old.module
    if not module:
        raise gating.Stop("no go.mod in %s, and it isn't below a GOPATH: go mod init PATH writes one" % new.told)
    new.name_module(module)
    old.name_module(new.module or module)
    for side, look in zip((new, old), reversed(looks(room, old, new))):
        side.mend(look)
    if old.module != new.module:
        raise gating.Stop("the module's path was %s at %s, and is %s now: who imports the old path isn't touched by this release; judge what is to"
                          " be released under the new path before go.mod is changed, and from its first release on against that" % (old.module, old.told, new.module))
    old.version = asked["version"] or old.version
    if not old.version:
        raise gating.Stop("no release is known of the old tree %s: say which it is, as --version v1.4.0" % old.told)
    if gating.numbers(old.version) is None:
        raise gating.Stop("version %s is not a release: three whole numbers, as v1.4.0" % gating.shown(old.version))
    return old, new


def alone(folder, room):
    """A module's tree for itself, with the new tree's name."""
    new = Side("new", room, "")
    new.called = "the tree"
    new.of_folder(folder)
    module = new.module or modules.path_in_gopath(folder)
    if not module:
        raise gating.Stop("no go.mod in %s, and it isn't below a GOPATH: go mod init PATH writes one" % new.told)
    new.name_module(module)
    new.mend(*looks(room, new))
    return new
