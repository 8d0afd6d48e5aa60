"""The groups of cases, in the order in which they are run and told."""
import adapters
import chosen
import debian
import disks
import drills
import faults
import journals
import kills
import looks
import lost
import many
import odd
import reshard
import runs
import scripts
import strict
import texts
import traces
import watch
import worked


class Group:
    """A name with its cases: those of a list, or so many random ones of one function for each seed, to which more may be added. Some are
    run only where they are asked for by name."""

    def __init__(self, name, function=None, count=0, listed=(), takes_more=False, is_asked=False):
        self.name, self.function, self.count, self.listed, self.takes_more, self.is_asked = name, function, count, listed, takes_more, is_asked

    def cases(self, more=0):
        """Each case's name and function, and whether it takes random numbers."""
        for number in range(self.count + more * self.takes_more):
            yield f"{self.name}.{number}", self.function, True
        for label, function in self.listed:
            yield f"{self.name}.{label}", function, False


EXAMPLES = [("one_line", lambda case: runs.example(case, "one_line")), ("shop", lambda case: runs.example(case, "shop")), ("bytes", runs.one_line_bytes)]

GROUPS = [
    Group("pages", listed=[("commands", worked.pages)]),
    Group("worked", listed=worked.CASES + strict.CASES),
    Group("examples", listed=EXAMPLES),
    Group("texts", listed=texts.CASES),
    Group("adapters", listed=adapters.CASES),
    Group("fresh", runs.fresh, 20),
    Group("growing", runs.growing, 10),
    Group("live", runs.live, 3),
    Group("wrong", runs.wrong, 40),
    Group("invented", journals.invented, 40),
    Group("damaged", journals.damaged, 60),
    Group("misfits", journals.misfits, 30),
    Group("drills", drills.drill, 40, [("many_joiners", drills.many_joiners)]),
    Group("plans", drills.plans, 50),
    Group("traces", listed=traces.CASES),
    Group("bulk", drills.bulk, 10),
    Group("kills", kills.kill, 20),
    Group("full_disk", kills.full_disk, 10),
    Group("held", kills.held, 2),
    Group("race", kills.race, 4),
    Group("at_call", listed=disks.AT_CALLS),
    Group("at_random", disks.at_random, 15, takes_more=True),
    Group("failed_sync", disks.failed_sync, 40, takes_more=True),
    Group("disks", listed=disks.LISTED),
    Group("losses", disks.losses, 20, takes_more=True),
    Group("odd", listed=odd.LISTED),
    Group("looks", listed=looks.CASES),
    Group("lost", listed=lost.CASES),
    Group("faults", listed=faults.CASES),
    Group("full_mount", odd.full, 4),
    Group("vanish", odd.vanish, 4),
    Group("moved", odd.moved, 8),
    Group("shrink", odd.shrink, 4),
    Group("reshard", listed=reshard.CASES),
    Group("rows", reshard.invented, 40),
    Group("histories", reshard.history, 105, takes_more=True),
    Group("parts", listed=many.CASES),
    Group("parts_killed", many.killed, 1),
    Group("parts_wrong", many.wrong, 4),
    Group("watch", watch.invented, 10, watch.CASES),
    Group("watch_growing", watch.growing, 2),
    Group("watch_live", watch.live, 1),
    Group("debian", listed=debian.CASES),
    Group("chosen", listed=chosen.CASES),
    Group("scripts", listed=scripts.CASES),
    Group("later", listed=faults.LATER, is_asked=True),
]
