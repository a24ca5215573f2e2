#!/usr/bin/env python3
"""What stands above a crate: python3 bench/above.py NAME. First the crates that are proved again when its contracts or definitions
change, lowest first, and then those of them that have tests or stored runs, which see what it does."""
import os
import re
import sys

TOP = os.path.dirname(os.path.dirname(os.path.abspath(__file__)))


def main(name):
    needs = {}
    with open(f"{TOP}/crates.txt") as it:
        for line in it:
            if re.match(r"[a-z]", line):
                head, _, tail = line.partition(":")
                needs[head.split()[0]] = tail.split()
    if name not in needs:
        print(f"crates.txt has no {name}")
        return 1
    below = {}

    def all_below(crate):
        if crate not in below:
            below[crate] = set()
            for it in needs.get(crate, []):
                below[crate] |= {it} | all_below(it)
        return below[crate]

    above = [it for it in needs if name in all_below(it)]

    def is_seen(crate):
        folder = f"{TOP}/crates/{crate}"
        sources = [f"{at}/{it}" for at, _, files in os.walk(f"{folder}/src") for it in files]
        return os.path.exists(f"{folder}/stdout") or any("#[test]" in open(it, encoding="utf-8").read() for it in sources)

    print(f"above {name}: {len(above)} crates")
    for crate in above:
        print(f"  {crate}")
    print("tests and stored runs that see it:")
    for crate in [it for it in [name, *above] if is_seen(it)]:
        print(f"  rt ci {crate}" if os.path.exists(f"{TOP}/crates/{crate}/stdout") else f"  cd crates/{crate} && rt test")
    return 0


if __name__ == "__main__":
    sys.exit(main(sys.argv[1]) if len(sys.argv) == 2 else print(__doc__) or 2)
