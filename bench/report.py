"""Measures and prints: report.py FOLDER, which holds the programs compare, stack, check and canonical."""

import json
import os
import platform
import statistics
import subprocess
import sys
import time

import inputs
import stores

SAMPLES, SAMPLE_TIME = 201, 300  # in microseconds, at least
PYTHON_SAMPLES = 51
LARGE_SAMPLES, LARGE_SAMPLE_TIME = 9, 20000  # of the large stores, where a call takes some milliseconds to some seconds


def python_form(data):
    value = json.loads(data)
    return json.dumps(value, sort_keys=True, separators=(",", ":"), ensure_ascii=False).encode()


def python_time(data):
    """Nanoseconds, as the median of many samples."""
    calls = 1
    while True:
        start = time.process_time_ns()
        for _ in range(calls):
            python_form(data)
        if time.process_time_ns() - start > 1000000:
            break
        calls *= 2
    times = []
    for _ in range(PYTHON_SAMPLES):
        start = time.process_time_ns()
        for _ in range(calls):
            python_form(data)
        times.append((time.process_time_ns() - start) / calls)
    return statistics.median(times)


def check(canonical, path, data):
    """Python has to give the library's bytes too."""
    said = subprocess.run([canonical, path], stdout=subprocess.PIPE, check=True).stdout
    if said.rsplit(b"\n", 2)[0] != python_form(data):
        sys.exit("bench: %s: Python gives another form" % path)


def lines(*command):
    """What a program prints for each file: its path and some numbers."""
    said = subprocess.run(command, stdout=subprocess.PIPE, check=True).stdout.decode()
    return {line.split("\t")[0]: list(map(float, line.split("\t")[1:])) for line in said.splitlines()}


def processor():
    try:
        with open("/proc/cpuinfo") as f:
            return next(line.split(":", 1)[1].strip() for line in f if line.startswith("model name"))
    except (OSError, StopIteration):
        return platform.machine()


def version(*command):
    return subprocess.run(command, stdout=subprocess.PIPE, check=True).stdout.decode().splitlines()[0]


def report_checks(folder):
    """Questions 7 to 9, as what 1 to 9 take less what 1 to 6 take."""
    made = inputs.write_checked(os.path.join(folder, "manifests"))
    speed = lines(os.path.join(folder, "check"), str(SAMPLES), *(path for _, path in made))
    cost = {}
    print()
    print("Checking a manifest: microseconds for one call, median of %d samples" % SAMPLES)
    print("%-30s %6s %10s %8s %8s %8s %10s %9s" % ("manifest", "bytes", "canonical", "1 to 6", "1 to 9", "7 to 9", "own form", "own/1-6"))
    own_form = 0, ""
    for name, path in made:
        form, text, both, own = (ns / 1000 for ns in speed[path][:4])
        if speed[path][4]:
            own_form = max(own_form, (own / text, name))
        cost[name] = form, both - text
        print("%-30s %6d %10.2f %8.2f %8.2f %8.2f %10.2f %9.2f" % (name, os.path.getsize(path), form, text, both, both - text, own, own / text))
    print()
    form, _ = cost["worked manifest"]
    print("Questions 7 to 9 of the worked manifest in canonical form, over making that form: %.2f" % (cost["its canonical form"][1] / form))
    print("Asking a canonical manifest whether it is its own form, over questions 1 to 6, at most: %.2f (%s)" % own_form)
    worst, name = max((own / cost["plain, 16 KB"][1], name) for name, (_, own) in cost.items())
    print("Worst manifest of 16 KB over the plain one: %.2f (%s)" % (worst, name))


def asked(what, value, most, name=None):
    """A line with a figure beside the most that is asked for."""
    print("%s: %.2f%s; asked: at most %.2f, %s" % (
        what, value, " (%s)" % name if name else "", most, "holds" if value <= most else "does not hold"))


def store_rows(folder, call, samples, sample_time, made):
    """Microseconds of the library and of the host's own code, and what else is timed, and the library's stack, for each store."""
    paths = [case.path for case in made]
    speed = lines(os.path.join(folder, "compare"), call, str(samples), str(sample_time), *paths)
    stack = lines(os.path.join(folder, "stack"), call, *paths)
    return [(case, *(ns / 1000 for ns in speed[case.path]), int(stack[case.path][0])) for case in made]


def report_loads(folder):
    """Plain stores, and what loading into the worst ones costs beside a plain one of their size."""
    rows = store_rows(folder, "load", SAMPLES, SAMPLE_TIME, stores.write_plain(os.path.join(folder, "stores")))
    print()
    print("Loading an image into a store: microseconds for one call, median of %d samples" % SAMPLES)
    print("%-28s %8s %11s %10s %10s %9s %13s" % ("store", "bytes", "acon", "host", "acon/host", "ns/byte", "acon's stack"))
    by_byte = {}
    for case, acon, host, used in rows:
        by_byte[case.name] = acon * 1000 / (case.store + case.manifest)
        print("%-28s %8d %11.2f %10.2f %10.2f %9.2f %13d" % (case.name, case.store, acon, host, acon / host, by_byte[case.name], used))
    print()
    asked("The library over the host's own code", *max((acon / host, 1, case.name) for case, acon, host, _ in rows))
    print("Time for a byte, 63 images over 8 images: %.2f; asked: as the bytes, 1.00" % (by_byte["63 images"] / by_byte["8 images"]))

    large = store_rows(folder, "load", LARGE_SAMPLES, LARGE_SAMPLE_TIME, stores.write_worst(os.path.join(folder, "stores")))
    (_, plain, _, _), *worst = large
    print()
    print("Loading an image into a store of 63 manifests of 16 KB: microseconds for one call, median of %d samples" % LARGE_SAMPLES)
    print("%-28s %8s %11s %10s %10s %9s %13s" % ("store", "bytes", "acon", "host", "acon/host", "/plain", "acon's stack"))
    for case, acon, host, used in large:
        print("%-28s %8d %11.2f %10.2f %10.2f %9.2f %13d" % (case.name, case.store, acon, host, acon / host, acon / plain, used))
    print()
    asked("Worst store over the plain one of its size", *max((acon / plain, 200, case.name) for case, acon, _, _ in worst))
    asked("Most stack of acon_load, in KB", max(used for _, _, _, used in rows + large) / 1024, 192)


def report_judges(folder):
    """Plain stores, and what judging the worst ones costs beside the plain one with as many images."""
    to = os.path.join(folder, "judged")
    rows = store_rows(folder, "judge", SAMPLES, SAMPLE_TIME, stores.write_judged(to, stores.judged_plain()))
    worst = store_rows(folder, "judge", LARGE_SAMPLES, LARGE_SAMPLE_TIME, stores.write_judged(to, stores.judged_worst()))
    _, plain, _, _ = rows[-1]
    print()
    print("Judging a store: microseconds for one call, median of %d samples (64 rules: %d)" % (SAMPLES, LARGE_SAMPLES))
    print("%-28s %8s %11s %10s %10s %9s %13s" % ("store", "bytes", "acon", "host", "acon/host", "/plain", "acon's stack"))
    for case, acon, host, used in rows + worst:
        print("%-28s %8d %11.2f %10.2f %10.2f %9.2f %13d" % (case.name, case.store, acon, host, acon / host, acon / plain, used))
    print()
    asked("The library over the host's own code, plain stores", *max((acon / host, 1, case.name) for case, acon, host, _ in rows))
    asked("Worst store over the plain one of 64 images", *max((acon / plain, 100, case.name) for case, acon, _, _ in worst))
    asked("Most stack of acon_judge, in KB", max(used for _, _, _, used in rows + worst) / 1024, 192)


def report_resolves(folder):
    """A job's layers, and what resolving layers in the worst stores costs beside checking these."""
    to = os.path.join(folder, "resolved")
    rows = store_rows(folder, "resolve", SAMPLES, SAMPLE_TIME, stores.write_resolved(to, stores.resolved_plain()))
    worst = store_rows(folder, "resolve", LARGE_SAMPLES, LARGE_SAMPLE_TIME, stores.write_resolved(to, stores.resolved_worst()))
    print()
    print("Resolving the layers of an image: microseconds for one call, median of %d samples (all but the first: %d)" % (SAMPLES, LARGE_SAMPLES))
    print("%-28s %8s %11s %10s %10s %10s %9s %13s" % ("store", "bytes", "acon", "host", "acon/host", "check", "/check", "acon's stack"))
    for case, acon, host, check, used in rows + worst:
        print("%-28s %8d %11.2f %10.2f %10.2f %10.2f %9.2f %13d" % (case.name, case.store, acon, host, acon / host, check, acon / check, used))
    print()
    asked("The library over the host's own code, a job's layers", *max((acon / host, 1, case.name) for case, acon, host, _, _ in rows))
    webs = [(acon / check, 10, case.name) for case, acon, _, check, _ in worst]
    asked("Worst web over checking its store", *max(row for row in webs if row[2].startswith("web")))
    print("Worst of all stores over checking it: %.2f (%s)" % max((ratio, name) for ratio, _, name in webs))
    asked("Most stack of acon_resolve, in KB", max(row[-1] for row in rows + worst) / 1024, 192)


def main():
    folder = sys.argv[1]
    made = inputs.write_all(os.path.join(folder, "inputs"))
    paths = [path for _, _, path in made]
    speed = lines(os.path.join(folder, "compare"), "canonical", str(SAMPLES), str(SAMPLE_TIME), *paths)
    stack = lines(os.path.join(folder, "stack"), "canonical", *paths)
    rows = {}
    for name, kilobytes, path in made:
        with open(path, "rb") as f:
            data = f.read()
        check(os.path.join(folder, "canonical"), path, data)
        acon, serde = (ns / 1000 for ns in speed[path])
        rows[name, kilobytes] = len(data), acon, serde, python_time(data) / 1000, int(stack[path][0])

    print("Canonical form: microseconds for one call, median of %d samples (Python: %d)" % (SAMPLES, PYTHON_SAMPLES))
    tools = version("rustc", "--version"), version("gcc", "--version"), "Python " + platform.python_version()
    print("; ".join((processor(), *tools)))
    print("Buffers: acon_canonical writes into one buffer that is not cleared between calls;")
    print("serde_json and Python make a new value and a new output in each call. Stack in bytes.")
    print()
    print("%-23s %6s %9s %10s %9s %11s %13s %12s" % (
        "text", "bytes", "acon", "serde_json", "Python", "acon/serde", "Python/serde", "acon's stack"))
    for (name, kilobytes), (size, acon, serde, python, used) in rows.items():
        title = name if kilobytes is None else "%s, %d KB" % (name, kilobytes)
        print("%-23s %6d %9.2f %10.2f %9.2f %11.2f %13.2f %12d" % (
            title, size, acon, serde, python, acon / serde, python / serde, used))

    print()
    print("Growth from 1 KB to 16 KB (linear: as the bytes), and share of the manifest of 16 KB")
    print("%-23s %6s %9s %10s %9s %22s" % ("text", "bytes", "acon", "serde_json", "Python", "acon, 16 KB/manifest"))
    _, manifest, _, _, _ = rows["manifest of 16 KB", None]
    worst = 0, ""
    for name, _ in inputs.CASES:
        small, large = rows[name, 1], rows[name, 16]
        growth = [after / before for before, after in zip(small[:4], large[:4])]
        share = large[1] / manifest
        worst = max(worst, (share, name))
        print("%-23s %6.1f %9.1f %10.1f %9.1f %22.2f" % (name, *growth, share))
    print()
    print("Worst case over the manifest of 16 KB: %.2f (%s)" % worst)
    print("Most stack: %d bytes" % max(row[4] for row in rows.values()))
    report_checks(folder)
    report_loads(folder)
    report_judges(folder)
    report_resolves(folder)


main()
