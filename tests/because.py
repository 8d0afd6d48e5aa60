"""The second line of a refusal, `photon: because: PATH: REASON`, by docs/GUIDE.md: it may stand behind the line that names the fault."""
import re

FRONT = "photon: because: "
DIRECTORY = ("it isn't there", "the directory above it isn't there", "it isn't a directory", "it isn't permitted", r"process \d+ has it",
             "another process has it", "it can't be made", "it is a link that leads nowhere", "the directory above it isn't one",
             "the directory above it isn't permitted", "its file system is read-only")
DISK = ("it is missing", "it is a link", "it is a directory", "it is a pipe", "it is a socket", "it is a device", "it isn't permitted",
        "its file system is read-only")
FILE = ("it isn't there", "it is a directory", "it is a pipe", "it is a socket", "it is a device", "it isn't permitted")
LINE = ("over 296 bytes", "over 200 bytes of text", "no space", "no second space", "no id before the first space", "no id before the second space",
        r"a carriage return at byte \d+", r"byte 0x[0-9a-f]{2} at byte \d+", r"the id of line \d+", "over 1099511627776 bytes")


def wrong_with(err, lines):
    """What is wrong with the lines behind the one that names a fault, or None. Most faults have none."""
    if not lines:
        return None
    reasons = DIRECTORY if err == "photon: store: directory" else DISK if err.startswith("photon: store: ") else FILE
    if re.match("photon: (queries|clicks):", err):
        reasons = ("it is compressed",) if lines[0].endswith(": it is compressed") else LINE
        place = r".*" if lines[0].endswith(": it is compressed") else rf".*:{err.split(':')[2]}"
    elif re.match("photon: (store|read): ", err):
        place = ".*"
    else:
        return f"{err!r} has no reason, and here stands {lines}"
    fits = len(lines) == 1 and re.fullmatch(f"{FRONT}{place}: ({'|'.join(reasons)})", lines[0])
    return None if fits else f"{lines} behind {err!r}"


def of_line(log, number, why):
    """The reason behind a refused line of a log, the line counted from 1: `LINE: REASON`, or `REASON` of a log that is compressed."""
    lines = log.split(b"\n")
    line, fault = lines[number - 1], None
    if log.startswith((b"\x1f\x8b", b"\xfd7zXZ\0", b"\x28\xb5\x2f\xfd", b"BZh")):
        return "it is compressed"
    if why == "TooLong":
        fault = "over 296 bytes" if len(line) > 296 else "over 200 bytes of text"
    elif why == "Space":
        fault = "no second space" if b" " in line else "no space"
    elif why in ("Id", "QueryId"):
        fault = f"no id before the {'first' if why == 'Id' else 'second'} space"
    elif why == "Conflict":
        fault = f"the id of line {[one.split(b' ')[0] for one in lines].index(line.split(b' ')[0]) + 1}"
    else:
        at = next(at for at, byte in enumerate(line) if not 0x20 <= byte <= 0x7e)
        fault = f"a carriage return at byte {at + 1}" if line[at] == 13 else f"byte 0x{line[at]:02x} at byte {at + 1}"
    return f"{number}: {fault}"


def of_log(name, log, refusal):
    """The whole reason behind the refusal `LINE: WHY` of a log of this name."""
    number, why = refusal.split(": ")
    told = of_line(log, int(number), why)
    return f"{name}: {told}" if told == "it is compressed" else f"{name}:{told}"
