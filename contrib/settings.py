"""What is asked of a run: the words, and what a file at the module's top says where the words don't."""
import argparse
import os

import gating

NAMES = (".apigate.toml", "apigate.toml")
FORMATS = ("text", "github", "json", "sarif", "junit")
LISTS = ("platforms", "api")


def parser(about):
    """The words of contrib/release-gate."""
    made = argparse.ArgumentParser(description=about, formatter_class=argparse.RawDescriptionHelpFormatter, allow_abbrev=False)
    made.add_argument("--old", default="", metavar="TREE", help="what was released last: a revision, a folder or MODULE@VERSION; else the last tag of a release below HEAD")
    made.add_argument("--new", default="", metavar="TREE", help="what is to be released, the same; else the work tree")
    made.add_argument("--version", default="", metavar="V", help="the version of the old tree, where its name doesn't say it")
    made.add_argument("--release", default="", metavar="V", help="the version that is to be given: it has to be at least the one advised, and then a promise may be lost and a break be there")
    made.add_argument("--platforms", default="", metavar="NAME,..", help="the platforms; linux-amd64 where nothing names any")
    made.add_argument("--api", default="", metavar="FILE,..", help="files of frozen lines; else the features of the old tree are the promises")
    made.add_argument("--except", default="", metavar="FILE", help="a file of frozen lines that may be lost")
    made.add_argument("--write-api", action="store_true", help="add the new lines to the last file of --api, or write it with all lines where it isn't there")
    made.add_argument("--update-except", action="store_true", help="add the lost lines to the file of --except")
    made.add_argument("--clients", default="", metavar="DIR,..", help="packages of other modules: tell of each whether it is typed, bodies and all, over the old and over the new tree")
    made.add_argument("--places", action="store_true", help="tell under the report where each broken object is declared, and each way from it to what is broken")
    made.add_argument("--format", default="text", choices=FORMATS, help="the form of the report; text where it isn't given")
    gating.add_limits(made)
    made.add_argument("module", nargs="?", default=".", metavar="MODULE", help="the module's folder; the one of the call where it isn't given")
    return made


def listed(path, name, value):
    """A list of texts that the file gives, or one text, joined by commas."""
    found = [value] if isinstance(value, str) else value
    if not isinstance(found, list) or not all(isinstance(each, str) and each for each in found):
        raise gating.Stop("%s: %s is to be a text%s" % (gating.shown(path), name, " or a list of texts" if name in LISTS else ""))
    if name not in LISTS and len(found) != 1:
        raise gating.Stop("%s: %s is to be one text" % (gating.shown(path), name))
    return found


def of_file(folder):
    """What the file at a module's top says, with paths from where the script is called."""
    found = [os.path.join(folder, name) for name in NAMES if os.path.lexists(os.path.join(folder, name))]
    if not found:
        return {}
    if len(found) > 1:
        raise gating.Stop("%s has both %s and %s: remove one" % (gating.shown(folder), *NAMES))
    if os.path.exists(found[0]) and not os.path.isfile(found[0]):
        raise gating.Stop("%s is no file" % gating.shown(found[0]))
    import tomllib
    try:
        with open(found[0], "rb") as file:
            told = tomllib.load(file)
    except (tomllib.TOMLDecodeError, UnicodeDecodeError) as error:
        raise gating.Stop("%s isn't TOML: %s" % (gating.shown(found[0]), error)) from error
    except OSError as error:
        raise gating.Stop("%s: %s" % (gating.shown(found[0]), error.strerror)) from error
    others = sorted(set(told) - {"platforms", "api", "except"})
    if others:
        raise gating.Stop("%s: %s isn't known: platforms, api and except are" % (gating.shown(found[0]), others[0]))
    said = {name: listed(found[0], name, value) for name, value in told.items()}
    for name in {"api", "except"} & set(said):
        said[name] = [os.path.join(folder, each) for each in said[name]]
    return {name: ",".join(value) for name, value in said.items()}


def asked(about, words=None):
    """The words, then the file, then what stands for neither."""
    found = vars(parser(about).parse_args(words))
    gating.limit(found["seconds"], found["megabytes"], found["workers"])
    said = of_file(found["module"])
    for name in ("platforms", "api", "except"):
        found[name] = found[name] or said.get(name, "")
    found["platforms"] = found["platforms"] or "linux-amd64"
    if found["release"] and gating.numbers(found["release"]) is None:
        raise gating.Stop("version %s is not a release: three whole numbers, as v1.5.0" % gating.shown(found["release"]))
    if found["write_api"] and not found["api"]:
        raise gating.Stop("--write-api wants --api FILE, or api in apigate.toml: the file that is written")
    if found["update_except"] and not found["except"]:
        raise gating.Stop("--update-except wants --except FILE, or except in apigate.toml: the file that is written")
    files = found["api"].split(",") if found["api"] else []
    missing = [each for each in files if not os.path.exists(each)]
    if missing and not (found["write_api"] and missing == files[-1:]):
        raise gating.Stop("%s isn't there: --write-api writes it" % gating.shown(missing[0]))
    if found["except"] and not os.path.exists(found["except"]) and not found["update_except"]:
        raise gating.Stop("%s isn't there: --update-except writes it" % gating.shown(found["except"]))
    return found
