#!/usr/bin/env python3
"""Times `edbtool check` on modules of 1,000,000 bytes: one of ordinary functions, and two that are slow to parse.

Usage: bench/parse_time.py [PROGRAM]; PROGRAM is crates/edbtool/out/edbtool, which `rt run` in
crates/edbtool leaves there. Prints for each file the processor seconds of the fastest run and the
peak memory in MB.

What stands at the front of an expression is read as a pattern first, for `=`, and only where no `=` is
behind it as an expression. So what stands in lists or tuples is read once more for each of them: the
time is the depth, at most 200, times the length. Where there is `=` in the lists, the depth of each left
side is measured each time too: that takes depth times depth times length.
"""

import os
import sys
import tempfile

from check_time import functions_text, run_once

FUNCTION = """
%% Serves till {n}, and says what is missing.
serve_{n}(Sum, [{{item, Name, Price}} | Rest] = All) when is_integer(Price), Price >= 0; Price =:= none ->
    Prices = [P * {n} - 16#ff || {{item, _, P}} <- All, P /= none],
    Add = fun (X, Y) when X > Y -> X + Y * 2; (X, _) -> X end,
    try lists:foldl(Add, Sum, Prices) of
        Total when Total rem 2 == 0 -> serve_{n}(Total, Rest);
        _ -> self() ! {{missing, Name}} % told later
    catch
        error:badarg:Stack -> io:format("no sum for ~p: " "~w~n", [Name, {{Stack, 1_000}}]);
        none -> ok
    after
        receive
            {{stop, Why}} -> exit(Why)
        after 10 -> begin -Sum, not (Sum < 3 andalso Name == 'red pear') end
        end
    end;
serve_{n}(Sum, []) ->
    if Sum > 3 -> ok; true -> case catch hd("plum") of $p -> [a, b] ++ [c | []]; _ -> {{}} end end.
"""


def ordinary(size):
    """Functions, one like the other."""
    return functions_text("-module(till).\n-export([serve_1/2]).\n", FUNCTION, size)


def nested(size, lists, matches):
    """A long list, in lists of which the innermost have `=` behind their element, in lists without."""
    front = "-module(slow).\nf() -> " + "[" * (lists + matches + 1)
    end = "]" + " = b]" * matches + "]" * lists + ".\n"
    count = (size - len(front) - len(end) - 1) // 2
    return front + "a" + ",a" * count + end


def main():
    top = os.path.dirname(os.path.dirname(os.path.abspath(__file__)))
    program = sys.argv[1] if len(sys.argv) > 1 else os.path.join(top, "crates/edbtool/out/edbtool")
    rows = [
        ("ordinary functions", ordinary(1_000_000), 11),
        ("a list in 197 lists", nested(1_000_000, 197, 0), 1),
        ("a list in 50 lists with = in 97 lists", nested(1_000_000, 97, 50), 1),
    ]
    with tempfile.TemporaryDirectory() as folder:
        for what, text, times in rows:
            name = os.path.join(folder, "till.erl")
            with open(name, "wb") as file:
                file.write(text.encode("ascii"))
            runs = [run_once(program, name) for _ in range(times)]
            seconds = min(run[1] for run in runs)
            peak = max(run[2] for run in runs)
            print(f"{what}: {len(text)} bytes, {seconds:.2f} s, {peak:.0f} MB", flush=True)


if __name__ == "__main__":
    main()
