#!/usr/bin/env bash
# Measures the binary form of two grammars with the program of crates/binary_bench: 31 rules of up to
# eight items, and a chain of 1,000 rules of one item. It writes the time of a run, the least of
# five, and the peak memory. The status is 1 where the chain takes more than a second or 64 MB, and 2
# where the program fails or gives a wrong count.
set -eu

root=$(cd -- "$(dirname -- "${BASH_SOURCE[0]}")/.." && pwd)
program=$root/crates/binary_bench/out/binary_bench

# The run proves and builds the program, where it has to be built.
(cd -- "$root/crates/binary_bench" && rt run -- chain </dev/null >/dev/null) || exit 2

exec python3 - "$program" <<'PROGRAM'
import pathlib
import subprocess
import sys
import time

PROGRAM = sys.argv[1]
RUNS = 5
MOST_SECONDS, MOST_MB = 1.0, 64.0

# The name of the grammar, and its count of symbols, by hand.
GRAMMARS = [("imperative", 105), ("chain", 2001)]


def measure(name, symbols):
    """The seconds up to the line that one run writes, and its peak megabytes."""
    began = time.monotonic()
    with subprocess.Popen(
        [PROGRAM, name], stdin=subprocess.PIPE, stdout=subprocess.PIPE, text=True
    ) as child:
        line = child.stdout.readline()
        taken = time.monotonic() - began
        status = pathlib.Path(f"/proc/{child.pid}/status").read_text()
        child.communicate()
    if child.returncode != 0 or not line.startswith(f"symbols {symbols} "):
        print(f"bench: {name} gave {line!r} and status {child.returncode}", file=sys.stderr)
        sys.exit(2)
    return taken, int(status.partition("VmHWM:")[2].split()[0]) / 1024


def main():
    print(f"{'grammar':<14}{'symbols':>8}{'seconds':>10}{'peak MB':>10}")
    for name, symbols in GRAMMARS:
        runs = [measure(name, symbols) for _ in range(RUNS)]
        seconds, peak = min(run[0] for run in runs), max(run[1] for run in runs)
        print(f"{name:<14}{symbols:>8}{seconds:>10.3f}{peak:>10.1f}")
    sys.exit(0 if seconds <= MOST_SECONDS and peak <= MOST_MB else 1)


main()
PROGRAM
