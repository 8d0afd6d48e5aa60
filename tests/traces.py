"""Traces of drills beside their plans, by docs/DRILLS.md, and the pictures that bin/photon-picture makes of them."""
import collections
import json
import os
import xml.etree.ElementTree as xml

from case import TOP

SAMPLES = os.path.join(TOP, "examples", "drills")
# Of each plan over which logs (of examples/), how many stops there are at least and at most.
PLANS = {"no_faults": ("shop", 0, 0), "lost_and_twice": ("one_line", 0, 0), "losses_and_repeats": ("shop", 0, 0), "all_late": ("shop", 0, 0),
         "dead_replica": ("one_line", 0, 0), "replica_stops": ("one_line", 3, 3), "server_stops": ("one_line", 2, 2), "output_before_gate": ("one_line", 1, 2)}


# ---- what a plan leads to

def fate_of(plan, sender, receiver, number):
    """What a plan makes of the packet of this number on the link between two nodes, as a trace spells it."""
    if receiver in [f"replica-{dead}" for dead in plan.get("dead", [])]:
        return "lost"
    for rule in plan.get("rules", []):
        steps, rest = divmod(number - rule["first"], rule.get("every", 1))
        kinds = (rule["from"], sender.split("-")[0]), (rule["to"], receiver.split("-")[0])
        if all(wanted in ("any", kind) for wanted, kind in kinds) and rest == 0 and 0 <= steps < rule["count"]:
            return {"drop": "lost", "twice": f"twice+{rule.get('by', 0)}", "late": f"late+{rule.get('by', 0)}"}[rule["fate"]]
    return "once"


def compare_trace(case, lines, plan):
    """Each node's turns alternate and begin with a start, also behind a stop; each packet has the fate of the plan; what is taken was sent, and
    all that was sent is taken at the end. Gives how many arrows a picture has, and how many stops there were."""
    numbers, waiting, stands, count = collections.Counter(), collections.Counter(), collections.defaultdict(lambda: "stops"), collections.Counter()
    before = -1
    for line in lines:
        step, node, word, *rest = line.split(" ", 3)
        rest = rest[0] if rest else ""
        case.check(int(step) == before + (word != "sends"), f"behind step {before} stands {line!r}")
        before, last = int(step), stands[node]
        if word == "sends":
            receiver, number, fate, text = rest.split(" ", 3)
            case.check((last, int(number), fate) == ("ends", numbers[node, receiver], fate_of(plan, node, receiver, int(number))), f"{line!r}")
            numbers[node, receiver] += 1
            waiting[node, receiver, text] += {"lost": 0, "twice": 2}.get(fate.split("+")[0], 1)
            count["arrows"] += 1 + fate.startswith("twice")
            continue
        if word == "takes":
            sender, text = rest.split(" ", 1)
            case.check(waiting[sender, node, text] > 0, f"what wasn't sent is taken: {line!r}")
            waiting[sender, node, text] -= 1
        after = {"stops": ("starts",), "ends": ("takes", "ticks", "works")}.get(last, ("ends", "stops"))
        case.check(word in after, f"{line!r} follows {last!r}")
        stands[node] = word
        count["stops"] += word == "stops"
    case.check(not +waiting, f"these are left: {+waiting}")
    return count["arrows"], count["stops"]


# ---- pictures

def compare_picture(case, path, arrows, stops):
    """The picture of a trace is well-formed, and has an arrow for each packet and each repeat, and a way down for each stop."""
    ended = case.run([path], tool="photon-picture")
    case.check((ended.status, ended.err) == (0, ""), f"status {ended.status}, {ended.err!r}")
    kinds = [part.get("class", "").split(" ")[0] for part in xml.fromstring(ended.out).iter()]
    case.check((kinds.count("arrow"), kinds.count("down")) == (arrows, stops), f"{kinds.count('arrow')} arrows of {arrows}, {kinds.count('down')} of {stops} stops")
    return ended.out


def pictures(case):
    """The traces of the page fit their plans, and the pictures beside it are theirs."""
    for name in sorted(os.listdir(SAMPLES)):
        if name.endswith(".trace"):
            path = os.path.join(SAMPLES, name)
            with open(path, encoding="utf-8") as trace, open(path[:-5] + "json", encoding="utf-8") as plan:
                count = compare_trace(case, trace.read().splitlines(), json.load(plan))
            with open(os.path.join(TOP, "docs", name[:-5] + "svg"), "rb") as file:
                case.check_same(compare_picture(case, path, *count), file.read(), f"the picture of {name}")


def refused(case):
    """What is no trace is refused at its line: other words, a turn that ends twice, a packet that wasn't sent, or not yet due."""
    start, sends = "0 server-A starts\n1 server-A ends -\n", "1 server-A sends server-B 0 late+2 Chosen 0 0 0\n1 server-A sends server-B 1 once Chosen 0 1 0\n"
    rows = [("", 0, None), (start, 0, None), ("0 server-A begins\n", 2, 1), ("0 server-B starts\n0 server-A ends -\n", 2, 2), (start + "2 server-A ends -\n", 2, 3),
            (start + "2 server-A takes server-B Chosen 0 0 0\n", 2, 3), (start + sends + "2 server-B takes server-A Chosen 0 1 0\n", 0, None),
            (start + sends + "2 server-B takes server-A Chosen 0 0 0\n", 2, 5), (start + "1 server-A sends server-B 0 gone Chosen 0 0 0\n", 2, 3)]
    for text, status, line in rows:
        case.write("trace", text.encode())
        ended = case.run(["trace"], tool="photon-picture")
        case.check(ended.status == status, f"status {ended.status} of {text!r}, {ended.err!r}")
        case.check(line is None or ended.err.startswith(f"photon-picture: line {line} doesn't follow"), f"{ended.err!r} of {text!r}")
    case.check(case.run(["nowhere"], tool="photon-picture").status == 4, "a file that isn't there")
    words = ["--queries", "nowhere", "--clicks", "nowhere", "--plan", "nowhere"]
    case.check(case.run(words, tool="photon-trace").status == 4, "a log that isn't there")


# ---- traces

def plan_of(name):
    """A sample plan."""
    with open(os.path.join(SAMPLES, f"{name}.json"), "rb") as file:
        return file.read()


def compare_traced(case, name, lines):
    """The trace of a drill by a sample plan fits the plan, and so does its picture."""
    least, most = PLANS[name][1:]
    arrows, stops = compare_trace(case, lines, json.loads(plan_of(name)))
    case.check(least <= stops <= most, f"{stops} stops by {name}")
    compare_picture(case, case.write("trace", "".join(f"{line}\n" for line in lines).encode()), arrows, stops)


CASES = [("pictures", pictures), ("refused", refused)]
