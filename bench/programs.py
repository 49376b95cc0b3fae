#!/usr/bin/env python3
"""Times two programs on one generated input, by turns.

    programs.py PROGRAM REFERENCE [--trace] [CALLS [RUNS]]

PROGRAM and REFERENCE are commands, with arguments if need be. The input is a
session script of so many calls (2,000,000 where none are given); with --trace a
trace of one section that has them (1,000,000; at most 1,398,100 fit). Each run
reads it from a file and writes to a file, so that no pipe is timed. Prints lines
or records a second of each, and the ratio of their times, of the least and of
the middle of so many runs (15). Both must write the same bytes.
"""

import pathlib
import shlex
import statistics
import subprocess
import sys
import tempfile
import time

sys.path.insert(0, str(pathlib.Path(__file__).resolve().parent.parent))

from tests.shared.packing import pack
from tests.shared.trial import GENERATE
from thymewax.trace import MOST_BYTES, RECORD, header_bytes

# Of a trace of one section.
START = header_bytes(1)
MOST_RECORDS = (MOST_BYTES - START) // RECORD.size


def run(command, source, target):
    """The seconds it takes."""
    with open(source, "rb") as read, open(target, "wb") as written:
        start = time.perf_counter()
        subprocess.run(command, stdin=read, stdout=written, check=True)
        return time.perf_counter() - start


def write_script(folder, calls):
    """The script, and how many lines it has."""
    script = folder / "script"
    run([sys.executable, "-B", GENERATE, "1", str(calls)], "/dev/null", script)
    return script, script.read_bytes().count(b"\n")


def write_trace(folder, calls):
    """The script's calls as a trace, and how many records it has."""
    script, _ = write_script(folder, calls)
    trace = folder / "trace"
    trace.write_bytes(pack(script.read_bytes()))
    return trace, (trace.stat().st_size - START) // RECORD.size


def time_by_turns(commands, source, outputs, runs):
    """The times of each."""
    times = [[] for _ in commands]
    for _ in range(runs):
        for taken, command, output in zip(times, commands, outputs):
            taken.append(run(command, source, output))
    return times


def check(outputs, answers):
    """Both wrote the same; to a trace, an answer to each record."""
    first, second = (output.read_bytes() for output in outputs)
    if first != second:
        sys.exit("the programs wrote different bytes")
    if answers is not None and first.count(b"\n") != answers:
        sys.exit("the trace was not replayed to its end")


def report(programs, times, count, unit):
    for program, taken in zip(programs, times):
        print(f"{program}: {count / min(taken):,.0f} {unit} a second at best")
    least = min(times[0]) / min(times[1])
    middle = statistics.median(times[0]) / statistics.median(times[1])
    print(f"ratio of least times {least:.2f}, of middle times {middle:.2f}, "
          f"{len(times[0])} runs of {count:,} {unit} each")


def main():
    arguments = [word for word in sys.argv[1:] if word != "--trace"]
    numbers = arguments[2:]
    if not 2 <= len(arguments) <= 4 or not all(word.isdigit() for word in numbers):
        sys.exit(__doc__)
    trace = "--trace" in sys.argv[1:]
    programs = arguments[:2]
    calls = int(numbers[0]) if numbers else 1_000_000 if trace else 2_000_000
    runs = int(numbers[1]) if len(numbers) > 1 else 15
    if trace and calls > MOST_RECORDS:
        sys.exit(f"a trace has room for {MOST_RECORDS:,} records")
    with tempfile.TemporaryDirectory() as name:
        folder = pathlib.Path(name)
        source, count = (write_trace if trace else write_script)(folder, calls)
        outputs = [folder / "first", folder / "second"]
        times = time_by_turns([shlex.split(program) for program in programs], source, outputs, runs)
        check(outputs, count if trace else None)
    report(programs, times, count, "records" if trace else "lines")


if __name__ == "__main__":
    main()
