#!/usr/bin/env python3
"""Measures the sweeps.

    tools/speed/measure.py compare [--rounds N] [CASE ..]   the library beside the C program yardstick.c, in turn
    tools/speed/measure.py growth [--rounds N]              how the library's time grows with panel and heights
    tools/speed/measure.py beside --other BENCH [--rounds N] [CASE ..]
                                                            the library beside another build of `bench`, in turn

A CASE is the arguments of both programs in quotes, such as "128 8 128 128 uneven". `compare` also fails where the two
print different results; `beside` does not, since another commit may define other results. The program `bench` must have
been built from the sources as they are: (cd crates/bench && rt run).
yardstick.c is compiled by `gcc -O3` into a temporary folder. What is printed are tables in Markdown.
"""

import argparse
import pathlib
import re
import statistics
import subprocess
import sys
import tempfile

HERE = pathlib.Path(__file__).resolve().parent
BENCH = HERE.parent.parent / "crates" / "bench" / "out" / "bench"
CASES = [
    "64 64 64 64",
    "128 8 128 128",
    "256 4 256 256",
    "64 64 64 64 uneven",
    "128 8 128 128 uneven",
]


def run(program, case):
    """One run: seconds forward, seconds back, and what else was printed."""
    done = subprocess.run([program, *case.split(), "timed"], capture_output=True, text=True, check=True)
    seconds = [float(s) for s in re.findall(r"^(?:forward|back) ([\d.]+) s", done.stdout, re.M)]
    results = [line for line in done.stdout.splitlines() if not re.match("forward|back", line)]
    return *seconds, results


def summed_up(how, runs):
    """Forward and back of several runs, by the median or the least of them."""
    return [how(times) for times in zip(*((forward, back) for forward, back, _ in runs))]


def medians(runs):
    return summed_up(statistics.median, runs)


def cells(ours, theirs):
    """Of forward and of back: both medians, their ratio, and that of the fastest runs, which a busy machine disturbs least."""
    fastest = zip(summed_up(min, theirs), summed_up(min, ours))
    for c, library, (fastest_c, fastest_library) in zip(medians(theirs), medians(ours), fastest):
        yield f"{c:.3f} s | {library:.3f} s | {c / library:.2f} | {fastest_c / fastest_library:.2f}"


def raced(other, case, rounds):
    """The runs of the library and of another program, made in turn so that what else the machine does hits both alike."""
    ours, theirs = [], []
    for _ in range(rounds):
        theirs.append(run(other, case))
        ours.append(run(BENCH, case))
    return ours, theirs


def compared(yardstick, case, rounds):
    """The runs of the library and of the C program, which print the same."""
    ours, theirs = raced(yardstick, case, rounds)
    printed = [results for _, _, results in ours + theirs]
    if any(other != printed[0] for other in printed):
        sys.exit(f"different results for {case}: {printed}")
    return ours, theirs


def headed(other):
    print(f"| arguments | forward, {other} | forward | times as fast | fastest runs | back, {other} | back | times as fast | fastest runs |")
    print("|---|---|---|---|---|---|---|---|---|")


def beside(other, cases, rounds):
    headed("other")
    for case in cases:
        forward, back = cells(*raced(other, case, rounds))
        print(f"| {case} | {forward} | {back} |", flush=True)


def compare(cases, rounds):
    headed("C")
    with tempfile.TemporaryDirectory() as folder:
        yardstick = pathlib.Path(folder) / "yardstick"
        subprocess.run(["gcc", "-O3", HERE / "yardstick.c", "-o", yardstick], check=True)
        for case in cases:
            forward, back = cells(*compared(yardstick, case, rounds))
            print(f"| {case} | {forward} | {back} |", flush=True)


def grown(title, cases, rounds):
    """A table of cases, each beside the one before."""
    print(f"\n| {title} | arguments | forward | times the last | back | times the last |")
    print("|---|---|---|---|---|---|")
    runs = {case: [] for _, case in cases}
    for _ in range(rounds):
        for case in runs:
            runs[case].append(run(BENCH, case))
    last = None
    for size, case in cases:
        forward, back = medians(runs[case])
        times = [f"{now / before:.2f}" for now, before in zip((forward, back), last)] if last else ["", ""]
        print(f"| {size} | {case} | {forward:.3f} s | {times[0]} | {back:.3f} s | {times[1]} |", flush=True)
        last = forward, back


def growth(rounds):
    sizes = [32, 64, 128, 256, 512]
    grown("columns", [(n, f"128 8 {n} 128") for n in sizes], rounds)
    grown("rows", [(n, f"128 8 128 {n}") for n in sizes], rounds)
    grown("columns and rows", [(f"{n} x {n}", f"128 8 {n} {n}") for n in sizes], rounds)
    grown("heights", [(n, f"128 8 128 128 heights={n}") for n in sizes], rounds)


def main():
    parser = argparse.ArgumentParser(description=__doc__, formatter_class=argparse.RawDescriptionHelpFormatter)
    parser.add_argument("what", choices=["compare", "growth", "beside"])
    parser.add_argument("cases", nargs="*", default=CASES, metavar="CASE")
    parser.add_argument("--other", type=pathlib.Path, metavar="BENCH", help="another build of `bench`, for beside")
    parser.add_argument("--rounds", type=int, default=9)
    arguments = parser.parse_intermixed_args()
    if arguments.what == "growth" and arguments.cases is not CASES:
        parser.error("growth takes no cases")
    if (arguments.what == "beside") != (arguments.other is not None):
        parser.error("beside, and it alone, takes --other")
    if not BENCH.exists():
        sys.exit(f"{BENCH} is not there: (cd crates/bench && rt run)")
    if arguments.what == "compare":
        compare(arguments.cases, arguments.rounds)
    elif arguments.what == "beside":
        beside(arguments.other.resolve(), arguments.cases, arguments.rounds)
    else:
        growth(arguments.rounds)


if __name__ == "__main__":
    main()
