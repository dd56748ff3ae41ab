"""Whether a program starts on this machine."""
import os
import subprocess

# what the gate says and ends with where it is given no words
WORDS_LINE = b"apigate: usage: "
STATUS = 2
SECONDS = 60


def refusal(program):
    """Returns why the program doesn't start here, or None: it is run without words, and has to say that these aren't good."""
    try:
        ran = subprocess.run([program], stdin=subprocess.DEVNULL, capture_output=True, timeout=SECONDS)
    except FileNotFoundError:
        return "its loader isn't there" if os.path.exists(program) else "it isn't there"
    except OSError as error:
        return error.strerror or str(error)
    except subprocess.TimeoutExpired:
        return "it said nothing for %d seconds" % SECONDS
    if ran.returncode == STATUS and ran.stderr.startswith(WORDS_LINE):
        return None
    said = ran.stderr.decode(errors="replace").strip().split("\n")[0]
    return "a trial run ended with %d%s" % (ran.returncode, ": " + said if said else "")
