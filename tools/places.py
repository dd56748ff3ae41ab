"""Where the launcher keeps programs: a folder of the checkout, or else one in the user's cache; and who works there alone."""
import contextlib
import fcntl
import os


class Closed(Exception):
    """Why a program can't be kept anywhere."""


def home():
    """Returns the user's folder, or an empty text where none is known."""
    if os.environ.get("HOME"):
        return os.environ["HOME"]
    import pwd
    try:
        return pwd.getpwuid(os.getuid()).pw_dir
    except KeyError:
        return ""


def cache(digest):
    """Returns the folder in the user's cache for what is made of sources with this digest; none where the user has no folder."""
    kept = os.environ.get("XDG_CACHE_HOME", "")
    kept = kept if os.path.isabs(kept) else os.path.join(home(), ".cache")
    return [os.path.join(kept, "apigate", digest[:16])] if os.path.isabs(kept) else []


def first(folders, work):
    """Returns what `work` gives in the first of these folders, made where it isn't there, in which it can be done."""
    reasons = []
    for folder in folders:
        try:
            os.makedirs(folder, exist_ok=True)
            return work(folder)
        except OSError as error:
            reasons.append("%s: %s" % (folder, error.strerror or error))
    raise Closed("no folder for it can be written (%s); XDG_CACHE_HOME may name one" % "; ".join(reasons))


def opened(folder):
    """Returns a folder in which a file can be made."""
    import tempfile
    with tempfile.TemporaryFile(dir=folder) as file:
        file.write(b"\0")
    return folder


@contextlib.contextmanager
def alone(folder, waits=lambda: None):
    """Holds the lock of a folder, and calls `waits` where another has it; where locks aren't to be had, goes on without."""
    held = os.open(folder, os.O_RDONLY)
    try:
        try:
            fcntl.flock(held, fcntl.LOCK_EX | fcntl.LOCK_NB)
        except BlockingIOError:
            waits()
            fcntl.flock(held, fcntl.LOCK_EX)
        except OSError:
            pass
        yield
    finally:
        os.close(held)


def put(path, content, mode=0o644):
    """Writes a file so that its name always stands for the whole of one."""
    import tempfile
    held, made = tempfile.mkstemp(dir=os.path.dirname(path), prefix=os.path.basename(path) + ".")
    try:
        with open(held, "wb") as file:
            file.write(content)
        os.chmod(made, mode)
        os.rename(made, path)
    except OSError:
        os.unlink(made)
        raise
