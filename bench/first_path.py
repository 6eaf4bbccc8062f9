#!/usr/bin/env python3
"""Times the program on three modules, plain and interpreted, and prints for each the pure moves, the seconds and the
peak memory.

Build the program first: in crates/edb, `rt run -- ../../examples/first.cmds ../../examples/shop.erl` leaves out/edb.
The moves are counted here by the language's rules; the program prints none. No part of the gate.
"""
import os
import subprocess
import sys
import tempfile
import time

TOP = os.path.dirname(os.path.dirname(os.path.abspath(__file__)))
PROGRAM = os.path.join(TOP, "crates", "edb", "out", "edb")
MOST, SLICE, NESTED = 100_000, 100, 16_384


def moves_of_turns(first, turn, acts, weight=1, moves=0):
    """The moves up to the greatest weight of a process that makes `first` moves and then turns of `turn` moves,
    with one act behind each of both where `acts` is true; from this weight and number of moves on."""
    left = first
    while weight < MOST:
        weight += 1
        budget = min(SLICE, MOST - weight)
        made = min(budget, left) if acts else budget
        if weight >= MOST:
            break
        moves += made
        weight += made
        left -= made
        if acts and left == 0 and weight < MOST:
            weight += 1
            left = turn
    return moves


# where the module is interpreted: the answer, the start, and a lease with one move and the Enter that ends it
ENTERED = {"weight": 5, "moves": 1}

CASES = [
    # the call, and then a Begin and a call for ever
    ("a loop", "spin", "go() -> go().", "[]", moves_of_turns(0, 0, False)),
    ("a loop, interpreted", "spin", "go() -> go().", "[]", moves_of_turns(0, 0, False, **ENTERED)),
    # the call, and then a Begin, a variable, a sum and a call for each of the nested calls
    ("nested calls", "deep", "go(N) -> 1 + go(N + 1).", "[0]", 1 + 4 * NESTED),
    ("nested calls, interpreted", "deep", "go(N) -> 1 + go(N + 1).", "[0]", 1 + 4 * NESTED),
    # a call, a Begin and a variable, and then a drop, a Begin, a variable, a sum, a call, a Begin and a variable
    ("a loop that displays", "show", "go(N) -> erlang:display(N), go(N + 1).", "[0]", moves_of_turns(3, 7, True)),
]


def peak_of(pid):
    """The greatest memory of a process so far, in MB, once it runs the program; 0 where it has ended."""
    try:
        with open(f"/proc/{pid}/status") as file:
            fields = dict(line.split(":", 1) for line in file)
    except OSError:
        return 0
    if fields["Name"].strip() != os.path.basename(PROGRAM) or "VmHWM" not in fields:
        return 0
    return int(fields["VmHWM"].split()[0]) / 1024


def run(folder, name, body, arguments, interpreted):
    """The seconds, the peak memory in MB as seen while it ran, and the status of one run."""
    module = os.path.join(folder, name + ".erl")
    script = os.path.join(folder, "script")
    arity = 0 if arguments == "[]" else 1
    with open(module, "w") as file:
        file.write(f"-module({name}).\n-export([go/{arity}]).\n{body}\n")
    with open(script, "w") as file:
        if interpreted:
            file.write(f"ii {name}\n")
        file.write(f"start {name} go {arguments}\n")
    peak = 0
    start = time.monotonic()
    child = subprocess.Popen([PROGRAM, script, module], stdout=subprocess.DEVNULL)
    while child.poll() is None:
        peak = max(peak, peak_of(child.pid))
    return time.monotonic() - start, peak, child.returncode


def main():
    if not os.path.exists(PROGRAM):
        sys.exit("bench: build crates/edb first")
    print(f"{'case':<26} {'moves':>8} {'seconds':>8} {'MB':>6} status")
    with tempfile.TemporaryDirectory() as folder:
        for label, name, body, arguments, moves in CASES:
            interpreted = label.endswith("interpreted")
            seconds, megabytes, status = run(folder, name, body, arguments, interpreted)
            print(f"{label:<26} {moves:>8} {seconds:>8.3f} {megabytes:>6.1f} {status:>6}")


if __name__ == "__main__":
    main()
