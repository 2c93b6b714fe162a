#!/usr/bin/env python3
"""Measures the program on documents of 1,000, 2,000, 4,000 and 8,000 functions or records, of up to 2,000 functions over
records of 20 fields, of two functions over a variant of up to 8,000 cases or over results in results up to 12 deep, and of up to
20,000 aliases.

    python3 bench/measure.py [path of the built program]

It needs nothing but the built program and python3. For each document it prints the bytes in and out, the least time of
several runs, the share of that time that reading the JSON takes at least (a document that is refused right behind the
reading), the peak memory, also for a byte and for an object of the JSON, and the ratios to the document of half as many
functions. Where `jq` is there, it is run beside the program on the largest document. Then it does the same for aliases, each of the one before, and as many maps whose keys
are the last of them: a world that is not built, which must be refused in linear time.
"""

import json
import os
import resource
import shutil
import subprocess
import sys
import tempfile
import time

COUNTS = [1000, 2000, 4000, 8000]
PASSED = [250, 500, 1000, 2000]
DEPTHS = [9, 10, 11, 12]
CHAINS = [2500, 5000, 10000, 20000]
RUNS = 5
HERE = os.path.dirname(os.path.abspath(__file__))
PROGRAM = os.path.join(HERE, "..", "crates", "wit_program", "out", "wit_program")


def name(wit):
    words = wit.split("-")
    return {
        "wit": wit,
        "snake": "_".join(words),
        "camel": "".join(word.capitalize() for word in words),
        "upper": "_".join(words).upper(),
    }


def function(i):
    types = ["u8", "u16", "u32", "u64", "s8", "s16", "s32", "s64"]
    params = [{"name": name(f"part-{k}"), "ty": types[(i + k) % 8]} for k in range(3)]
    return {
        "function": {
            "name": name(f"work-{i}"),
            "kind": "freestanding",
            "params": params,
            "result": types[i % 8],
        }
    }


def document(imports, types, world, options=None, exports=()):
    the_world = {"name": name("w"), "package": 0, "imports": imports, "exports": list(exports)}
    package = {"namespace": name("t"), "name": name("p"), "module": "p"}
    resolve = {"worlds": [the_world], "packages": [package], "interfaces": [], "types": types}
    whole = {"resolve": resolve, "world": world, "options": options or {}}
    return json.dumps(whole, separators=(",", ":")).encode()


def functions(count, world):
    return document([function(i) for i in range(count)], [], world)


def unnamed(kind):
    return {"name": None, "owner": None, "kind": kind}


def chain(count, world):
    """So many aliases, each of the one before, and as many maps keyed by the last."""
    aliases = [unnamed({"alias": i - 1 if i else "u32"}) for i in range(count)]
    return document([], aliases + [unnamed({"map": [count - 1, "u8"]})] * count, world)


def record(i, count=4):
    fields = [{"name": name(f"part-{k}"), "ty": ["u8", "u32", "u64", "string"][(i + k) % 4]} for k in range(count)]
    return {"name": name(f"data-{i}"), "owner": {"world": 0}, "kind": {"record": fields}}


def records(count, world):
    """A world of so many records, which are defined though no function reaches them."""
    options = {"generate-unused-types": True}
    return document([{"type": i} for i in range(count)], [record(i) for i in range(count)], world, options)


def passing(i):
    """A function that takes a record of its own, and gives it."""
    params = [{"name": name("value"), "ty": i}]
    return {"function": {"name": name(f"pass-{i}"), "kind": "freestanding", "params": params, "result": i}}


def passed_records(count, world):
    """A world of so many functions over records of 20 fields, half of them imported and half exported."""
    imports = [{"type": i} for i in range(count)] + [passing(i) for i in range(0, count, 2)]
    return document(imports, [record(i, 20) for i in range(count)], world, exports=[passing(i) for i in range(1, count, 2)])


def passed_last(types, world):
    """A world of an imported and an exported function that take and give the last of these types."""
    given = [passing(len(types) - 1)]
    named = [{"type": i} for i, t in enumerate(types) if t["name"]]
    return document(named + given, types, world, exports=given)


def variant(count, world):
    """One variant of so many cases, each with a number."""
    cases = [{"name": name(f"case-{i}"), "ty": "u32"} for i in range(count)]
    return passed_last([{"name": name("choice"), "owner": {"world": 0}, "kind": {"variant": cases}}], world)


def results(depth, world):
    """A result whose two types are the same result, and so on down to a number: the code doubles with each."""
    types = [["u32", "u32"] if i == 0 else [i - 1, i - 1] for i in range(depth)]
    return passed_last([unnamed({"result": t}) for t in types], world)


def run(command, source, target):
    """Seconds, peak kilobytes and status of one run."""
    with open(source, "rb") as given, open(target, "wb") as taken:
        start = time.perf_counter()
        child = subprocess.Popen(command, stdin=given, stdout=taken, stderr=subprocess.DEVNULL)
        _, status, usage = os.wait4(child.pid, 0)
        seconds = time.perf_counter() - start
    child.returncode = os.waitstatus_to_exitcode(status)
    return seconds, usage.ru_maxrss, child.returncode


def best(command, source, target, wanted):
    results = [run(command, source, target) for _ in range(RUNS)]
    for _, _, status in results:
        if status != wanted:
            sys.exit(f"{command}: status {status}, not {wanted}")
    return min(r[0] for r in results), max(r[1] for r in results)


def put(make, count, world, path):
    """Writes a document. A child makes it: a program that starts here counts in its own peak what python holds then."""
    child = os.fork()
    if child == 0:
        with open(path, "wb") as f:
            f.write(make(count, world))
        os._exit(0)
    _, status = os.waitpid(child, 0)
    if status != 0:
        sys.exit(f"{path}: no document could be written")


def objects_in(path):
    """The length of a document, and how many objects it has."""
    length, count = 0, 0
    with open(path, "rb") as f:
        while part := f.read(1 << 16):
            length += len(part)
            count += part.count(b"{")
    return length, count


def measure(program, folder, what, make, counts, status):
    """A line for each count of a form of document, which gives this status. It returns the last time and the last document."""
    source = os.path.join(folder, "in.json")
    target = os.path.join(folder, "out")
    before = None
    for count in counts:
        # A world out of range is refused as soon as the tables have been read.
        put(make, count, 1, source)
        reading, _ = best([program, "generate"], source, target, 6)
        put(make, count, 0, source)
        length, objects = objects_in(source)
        seconds, peak = best([program, "generate"], source, target, status)
        line = (
            f"{count} {what}: {length} bytes in, {os.path.getsize(target)} out, "
            f"{seconds * 1000:.0f} ms ({reading / seconds:.0%} reading), {peak} KB, "
            f"{seconds * 1e9 / length:.0f} ns and {peak * 1024 / length:.1f} bytes for a byte, {peak * 1024 / objects:.0f} for a JSON object"
        )
        if before:
            line += f", time x{seconds / before[0]:.2f}, memory x{peak / before[1]:.2f}"
        print(line)
        before = (seconds, peak)
    return before[0], source, target


def main():
    program = sys.argv[1] if len(sys.argv) > 1 else PROGRAM
    with tempfile.TemporaryDirectory() as folder:
        taken, source, target = measure(program, folder, "functions", functions, COUNTS, 0)
        if shutil.which("jq"):
            seconds, _ = best(["jq", "-c", "."], source, target, 0)
            print(f"jq -c . on the largest: {seconds * 1000:.0f} ms; the program takes {taken / seconds:.2f} of that")
        measure(program, folder, "records", records, COUNTS, 0)
        measure(program, folder, "functions over records of 20 fields", passed_records, PASSED, 0)
        measure(program, folder, "cases of a variant", variant, COUNTS, 0)
        measure(program, folder, "results deep", results, DEPTHS, 0)
        measure(program, folder, "aliases and as many maps", chain, CHAINS, 10)


main()
