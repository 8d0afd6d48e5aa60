"""Logs whose ids somebody chose so that a hash with a fixed seed puts them all into one place join in the time of any others.

The logs are those of processes of which each has two lines: the second one, which is clicked on, is out of order. Compared is the processor
time of two drills without faults, which touch no disk, with that of the same logs with micros by chance: with hash tables it was seven times as
much at this size, and more with more clicks.
"""
import resource

CLICKS = 20000
MOST = 3  # times as much
WORD = (1 << 64) - 1


def folded(left, right):
    """The low half of a product, and the high half over it."""
    product = left * right
    return product & WORD ^ product >> 64


def place(*numbers):
    """What the toolchain's hasher has taken in after some numbers of 32 bits."""
    state = 0x243f6a8885a308d3
    for number in numbers:
        state = folded(state ^ (number | number << 32), 0x9e3779b97f4a7c15 ^ 8)
    return state


def spell(process, micros):
    """An id of one address."""
    return b"10.0.0.1:%d:%d" % (process, micros)


def spent(case, name, micros):
    """The processor seconds of a drill over such logs, the lesser of two."""
    queries, clicks = [], []
    for process, chosen in enumerate(micros, 1):
        queries += [b"%s first\n" % spell(process, WORD), b"%s then\n" % spell(process, chosen)]
        clicks.append(b"%s %s word\n" % (spell(process, chosen), spell(process, chosen)))
    words = ["drill", "--queries", case.write(f"{name}_queries", b"".join(queries)), "--clicks", case.write(f"{name}_clicks", b"".join(clicks)),
             "--plan", case.write("plan", b"{}")]
    seconds = []
    for _ in range(2):
        before = resource.getrusage(resource.RUSAGE_CHILDREN)
        ended = case.run(words)
        after = resource.getrusage(resource.RUSAGE_CHILDREN)
        seconds.append(after.ru_utime + after.ru_stime - before.ru_utime - before.ru_stime)
        case.check((ended.status, ended.err) == (0, ""), f"status {ended.status}, {ended.err!r}")
        case.check(ended.out.endswith(b"\n= %d 0 0 0\n" % len(micros)), f"the report ends with {ended.out[-40:]!r}")
    case.note(f"  {name}: {seconds[0]:.2f} and {seconds[1]:.2f} seconds")
    return min(seconds)


def colliding(case):
    """Ids that collide take no more than a few times as long as others."""
    target = case.random.getrandbits(64)
    ours = spent(case, "chosen", [place(0x0a000001, process) ^ target for process in range(1, CLICKS + 1)])
    others = spent(case, "plain", [case.random.getrandbits(64) for _ in range(CLICKS)])
    case.check(ours <= MOST * others, f"chosen ids took {ours:.2f} seconds of the processors, others {others:.2f}")


CASES = [("ids", colliding)]
