#!/usr/bin/env python3
"""Times `edbtool check` on a file of 500,000 and one of 1,000,000 bytes of ordinary Erlang text.

Usage: bench/check_time.py [PROGRAM]; PROGRAM is crates/edbtool/out/edbtool, which `rt run` in
crates/edbtool leaves there. Prints for each file the seconds and the processor seconds of the
fastest of eleven runs and the peak memory in MB, and how many times the processor time of the
smaller file the larger one takes.
"""

import os
import sys
import tempfile
import time

RUNS = 11

FUNCTION = """
%% Adds up what is in the till, and says what is missing.
sum_{n}([{{item, Name, Price}} | Rest], Total) when is_integer(Price), Price >= 0 ->
    NewTotal = Total + Price * {n} - 16#ff,
    case lists:member(Name, [apple, 'red pear', "plum", $x]) of
        true -> sum_{n}(Rest, NewTotal);
        false ->
            io:format("no price for ~p: ~w~n", [Name, {{NewTotal, 1_000}}]),
            self() ! {{missing, Name}}, % told later
            sum_{n}(Rest, Total)
    end;
sum_{n}([], Total) -> {{ok, Total}}.
"""


def functions_text(head, function, size):
    """The head of a module and as many functions, numbered from 1, as have room in so many bytes."""
    parts = [head]
    length = len(head)
    number = 1
    while True:
        part = function.format(n=number)
        length += len(part)
        if length > size:
            return "".join(parts)
        parts.append(part)
        number += 1


def erlang_text(size):
    """A module of exactly this many bytes."""
    text = functions_text("-module(till).\n-export([main/0]).\nmain() -> sum_1([], 0).\n", FUNCTION, size)
    return text.ljust(size, "\n").encode("ascii")


def run_once(program, name):
    """The seconds, the processor seconds and the peak memory in MB of one run."""
    start = time.perf_counter()
    child = os.fork()
    if child == 0:
        os.dup2(os.open(os.devnull, os.O_WRONLY), 1)
        os.execv(program, [program, "check", name])
    _, status, usage = os.wait4(child, 0)
    seconds = time.perf_counter() - start
    if os.waitstatus_to_exitcode(status) != 0:
        sys.exit(f"{program} check {name}: status {os.waitstatus_to_exitcode(status)}")
    return seconds, usage.ru_utime + usage.ru_stime, usage.ru_maxrss / 1024


def main():
    top = os.path.dirname(os.path.dirname(os.path.abspath(__file__)))
    program = sys.argv[1] if len(sys.argv) > 1 else os.path.join(top, "crates/edbtool/out/edbtool")
    least = {}
    with tempfile.TemporaryDirectory() as folder:
        for size in (500_000, 1_000_000):
            name = os.path.join(folder, f"till_{size}.erl")
            with open(name, "wb") as file:
                file.write(erlang_text(size))
            runs = [run_once(program, name) for _ in range(RUNS)]
            seconds = min(run[0] for run in runs)
            least[size] = min(run[1] for run in runs)
            peak = max(run[2] for run in runs)
            print(f"{size} bytes: {seconds:.3f} s, processor {least[size]:.3f} s, {peak:.1f} MB")
    print(f"twice the bytes: {least[1_000_000] / least[500_000]:.2f} times the processor time")


if __name__ == "__main__":
    main()
