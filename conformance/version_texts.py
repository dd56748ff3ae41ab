"""What the scripts share that draw versions: texts that are versions of SemVer 2.0.0 and texts that nearly are, and an
independent reading of them by the rules of semver.org."""

LETTERS = "ABCDEFGHIJKLMNOPQRSTUVWXYZabcdefghijklmnopqrstuvwxyz"
DIGITS = "0123456789"
LAST = 2**64 - 1

# Texts that the pages of semver.org and the tests of its grammar show as versions, and as none.
GOOD = """0.0.4 1.2.3 10.20.30 1.1.2-prerelease+meta 1.1.2+meta 1.1.2+meta-valid 1.0.0-alpha 1.0.0-beta 1.0.0-alpha.beta
1.0.0-alpha.beta.1 1.0.0-alpha.1 1.0.0-alpha0.valid 1.0.0-alpha.0valid
1.0.0-alpha-a.b-c-somethinglong+build.1-aef.1-its-okay 1.0.0-rc.1+build.1 2.0.0-rc.1+build.123 1.2.3-beta
10.2.3-DEV-SNAPSHOT 1.2.3-SNAPSHOT-123 1.0.0 2.0.0 1.1.7 2.0.0+build.1848 2.0.1-alpha.1227 1.0.0-alpha+beta
1.2.3----RC-SNAPSHOT.12.9.1--.12+788 1.2.3----R-S.12.9.1--.12+meta 1.2.3----RC-SNAPSHOT.12.9.1--.12
1.0.0+0.build.1-rc.10000aaa-kk-0.1 1.0.0-0A.is.legal 1.0.0-0.3.7 1.0.0-x.7.z.92 1.0.0-x-y-z.-- 1.0.0+001
1.0.0+20130313144700 1.0.0-beta+exp.sha.5114f85 1.0.0+21AF26D3----117B344092BD 1.0.0-beta.11 1.0.0-rc.1 0.0.0""".split()
BAD = """1 1.2 1.2.3-0123 1.2.3-0123.0123 1.1.2+.123 +invalid -invalid -invalid+invalid -invalid.01 alpha alpha.beta
alpha.beta.1 alpha.1 alpha+beta alpha_beta alpha. alpha.. beta 1.0.0-alpha_beta -alpha. 1.0.0-alpha.. 1.0.0-alpha..1
1.0.0-alpha...1 1.0.0-alpha....1 1.0.0-alpha.....1 01.1.1 1.01.1 1.1.01 1.2.3.DEV 1.2-SNAPSHOT
1.2.31.2.3----RC-SNAPSHOT.12.09.1--..12+788 1.2-RC-SNAPSHOT -1.0.3-gamma+b7718 +justmeta 9.8.7+meta+meta
9.8.7-whatever+meta+meta 99999999999999999999999.999999999999999999.99999999999999999
99999999999999999999999.999999999999999999.99999999999999999----RC-SNAPSHOT.12.09.1--------------------------------..12
1.0.0- 1.0.0+ 1.0.0-+ 1.0.0-+b 1.0.0-a+ 1.0.0-00 1.0.0-0.00 .1.0 1..0 1.0. 1.0.0.0 1.0.0.""".split()
# The greatest numbers and what stands beside them.
EDGES = [0, 1, 2, 9, 10, 11, 99, 2**31 - 1, 2**31, 2**32 - 1, 2**32, 2**63 - 1, 2**63, LAST - 1, LAST, LAST + 1, LAST + 2, 10**19, 10**20, 2**65, 2**128]


def is_number(text):
    """Digits without a zero in front of others."""
    return text != "" and all(sign in DIGITS for sign in text) and (text == "0" or text[0] != "0")


def is_build_identifier(text):
    return text != "" and all(sign in LETTERS + DIGITS + "-" for sign in text)


def is_pre_identifier(text):
    return is_build_identifier(text) and (is_number(text) or any(sign not in DIGITS for sign in text))


def parts(text):
    """The three numbers, the identifiers of the pre-release and those of the build metadata; or None where the text is no version.

    A `+` ends the front, and in the front a `-` ends the numbers: no number holds one, and no pre-release a `+`."""
    front, plus, build = text.partition("+")
    numbers, dash, pre = front.partition("-")
    numbers = numbers.split(".")
    pre = pre.split(".") if dash else []
    build = build.split(".") if plus else []
    if len(numbers) != 3 or not all(map(is_number, numbers)):
        return None
    if not all(map(is_pre_identifier, pre)) or not all(map(is_build_identifier, build)):
        return None
    return [int(number) for number in numbers], pre, build


def held(text):
    """The parts of a version whose numbers are below 2^64, or None."""
    found = parts(text)
    return found if found and max(found[0]) <= LAST else None


def number_of(draw):
    choice = draw.random()
    if choice < 0.4:
        return draw.randrange(12)
    if choice < 0.7:
        return draw.choice(EDGES)
    return draw.getrandbits(draw.choice([4, 8, 16, 32, 60, 63, 64, 64, 65]))


def identifier_of(draw):
    choice = draw.randrange(8)
    if choice < 2:
        return str(number_of(draw))
    if choice < 3:
        return draw.choice(["0", "00", "01", "0a", "-", "--", "-1", "0-", "a", "rc", "alpha", ""])
    return "".join(draw.choice(LETTERS[:6] + DIGITS[:3] + "-") for _ in range(draw.randrange(1, 6)))


def identifiers_of(draw):
    return ".".join(identifier_of(draw) for _ in range(draw.randrange(1, 4)))


def spoiled(draw, text):
    """One or two places with a sign dropped, doubled, put in or replaced."""
    for _ in range(draw.choice([1, 1, 2])):
        at = draw.randrange(len(text) + 1)
        sign = draw.choice(["0", "1", "9", ".", "-", "+", "v", "V", "a", "_", " ", "=", "\u0663", "\u00e9", "*", "x", "^", "~", "\t", "\0", ","])
        text = draw.choice([text[:at] + text[at + 1:], text[:at] + text[at:at + 1] + text[at:], text[:at] + sign + text[at:], text[:at] + sign + text[at + 1:]])
    return text


def drawn(draw):
    """A text that is a version or nearly one."""
    choice = draw.random()
    if choice < 0.04:
        return draw.choice(GOOD)
    if choice < 0.07:
        return draw.choice(BAD)
    text = ".".join(str(number_of(draw)) for _ in range(3 if draw.random() < 0.97 else draw.randrange(6)))
    if draw.random() < 0.25:
        text += "-" + identifiers_of(draw)
    if draw.random() < 0.2:
        text += "+" + identifiers_of(draw)
    return spoiled(draw, text) if draw.random() < 0.2 else text
