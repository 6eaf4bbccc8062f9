#!/usr/bin/env python3
"""Fails if a crate of crates.txt stands on a crate of a higher floor, or has no folder. Run it at the top; it isn't part of the gate."""
import os
import sys

floor, floors, uses = 0, {}, {}
for line in open("crates.txt", encoding="utf-8"):
    if line.startswith("# ") and line[2].isdigit():
        floor = int(line[2])
    elif ":" in line and not line.startswith("#"):
        name, below = line.split(":")
        floors[name.split()[0]], uses[name.split()[0]] = floor, below.split()
bad = [f"{name} stands on {other}, a floor up" for name in uses for other in uses[name] if floors.get(other, 0) > floors[name]]
bad += [f"{name} has no folder" for name in uses if not os.path.isdir(f"crates/{name}/src")]
print("\n".join(bad) or "floors: ok")
sys.exit(bool(bad))
