#!/usr/bin/env python3
"""examples.py [--edb PROGRAM] [--edbtool PROGRAM]: runs the table of examples/README.md and compares what the programs write,
and their status, with what stands beside them; and holds the copies of examples in crates/ equal to them. Not part of the gate."""
import os
import re
import subprocess
import sys

top = os.path.join(os.path.dirname(os.path.abspath(__file__)), "..")
examples = os.path.join(top, "examples")
args = sys.argv[1:]
programs = {}
for name in ("edb", "edbtool"):
    programs[name] = args[args.index("--" + name) + 1] if "--" + name in args else os.path.join(top, "bin", name)
programs = {name: os.path.abspath(program) for name, program in programs.items()}
bad = 0
row = re.compile(r"^\| `\.\./bin/(\w+) ([^`]+)` \| (\S+) \| (\d+) \|")
for line in open(os.path.join(examples, "README.md"), encoding="utf-8"):
    found = row.match(line)
    if not found:
        continue
    name, words, out, status = found.groups()
    ran = subprocess.run([programs[name], *words.split()], cwd=examples, capture_output=True)
    want = open(os.path.join(examples, out), "rb").read()
    if (ran.stdout, ran.returncode) != (want, int(status)):
        bad += 1
        print(f"{name} {words}: status {ran.returncode}, not what {out} has")
for crate in ("edb", "edbtool"):
    data = os.path.join(top, "crates", crate, "data")
    for name in sorted(os.listdir(data)):
        own = os.path.join(examples, name)
        if os.path.exists(own) and open(own, "rb").read() != open(os.path.join(data, name), "rb").read():
            bad += 1
            print(f"crates/{crate}/data/{name} differs from examples/{name}")
shown = open(os.path.join(examples, "bill.out"), encoding="utf-8").read()
page = re.sub(r"(?m)^    ", "", open(os.path.join(top, "docs", "COMMANDS.md"), encoding="utf-8").read())
if shown not in page:
    bad += 1
    print("docs/COMMANDS.md doesn't have the transcript of the bill")
print("examples: ok" if not bad else f"examples: {bad} differ")
sys.exit(bool(bad))
