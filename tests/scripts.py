"""The scripts of tests/scripts: the program that plays them is built once, unproved; by that of whole runs it tells traces of drills, too."""
import importlib.machinery
import importlib.util
import os

import drivers
import rows
import runs
import traces
from case import TOP, Skipped


def tool(name):
    """A Python program of bin/, as a module."""
    loader = importlib.machinery.SourceFileLoader(name.replace("-", "_"), os.path.join(TOP, "bin", name))
    module = importlib.util.module_from_spec(importlib.util.spec_from_loader(loader.name, loader))
    loader.exec_module(module)
    return module


def tried(case, name, inputs):
    """What the driver prints for each input; it ends well each time."""
    if not drivers.has_toolchain():
        raise Skipped("the toolchain, rt, is not on the path")
    outputs, said = drivers.tried(name, inputs)
    case.note(said)
    case.check(outputs.keys() == inputs.keys(), f"of {sorted(inputs)} only {sorted(outputs)} ended well:\n{said}")
    return outputs


def plans():
    """For each sample plan what bin/photon-trace has played."""
    for name, (logs, _, _) in traces.PLANS.items():
        files = [*(runs.read_example(logs, log) for log in ("queries", "clicks")), traces.plan_of(name)]
        yield name, (["program_scripts"], "".join(TRACE.script(files, [])))


def all_scripts(case):
    """Each row is answered as its script says, and all are played; the traces of drills fit their plans."""
    homes = {path.parent.name: path.parent for path in rows.scripts()}
    scripts = {name: ([name], drivers.read(home / "stdin")) for name, home in homes.items()}
    outputs = tried(case, "players", {**scripts, **dict(plans())})
    told = []
    for name, (_, script) in scripts.items():
        case.check_same(outputs[name].encode(), drivers.read(homes[name] / "stdout").encode(), f"what {name} tells of its rows")
        told.append(f"{name}: {rows.row_count(script)} rows")
        case.rows += rows.row_count(script)
    for name in traces.PLANS:
        lines, wrong = TRACE.lines_of(outputs[name])
        case.check(lines is not None and not wrong, f"the drill by {name}: {wrong}")
        traces.compare_traced(case, name, lines)
    case.told = "\n".join([*told, f"traces of drills: {len(traces.PLANS)}"])


def bench_parts(case):
    """The program that is timed does its part with threads."""
    words, wanted = (drivers.read(os.path.join(drivers.PARTS, file)) for file in ("args", "stdout"))
    outputs = tried(case, "bench_parts", {"turns": (words.split(), "")})
    case.check_same(outputs["turns"].encode(), wanted.encode(), "what bench_parts counts")
    case.told, case.rows = "bench_parts: 1 row", 1


TRACE = tool("photon-trace")
CASES = [("players", all_scripts), ("bench_parts", bench_parts)]
