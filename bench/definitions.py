#!/usr/bin/env python3
"""Counts the definitions on which the clauses of `run` stand, as docs/DEFINITIONS.md does: each name in a clause is
followed to its definition in specs/ of some crate, and from there each name in that, to the end. Prints how many they
are, how many the clause `headline` alone stands on, and how many each file has among them."""
import collections
import pathlib
import re

CRATES = pathlib.Path(__file__).resolve().parent.parent / "crates"
USE = re.compile(r"(?:pub |ghost )?use Rattle\.(\w+)\.specs\.([\w.\-]+?)(?:\.\{([^}]*)\}| as (\w+))?;?$")
BEGINS = re.compile(r"(?:unfoldable |abbrev |pub |record |data )+(◌?[\w\-◌≤<>=&|+*]+)")
WORD = re.compile(r"[\w\-◌≤]+(?:\.[\w\-]+)*|>>=")


def named_by(line):
    """What a `use` line brings in: a name for each word of its group, or for its module."""
    found = USE.match(line)
    if not found:
        return {}
    crate, module, group, alias = found.groups()
    if group is None:
        return {alias: (crate, module, None)} if alias else {}
    pairs = [word.strip().split(" as ") for word in group.split(",") if word.strip()]
    return {pair[-1].strip(): (crate, module, pair[0].strip()) for pair in pairs}


def module_of(path):
    """The definitions of a file by name, and what its `use` lines name."""
    names, bodies, current, depth = {}, collections.defaultdict(list), None, 0
    for line in path.read_text().split("\n"):
        names.update(named_by(line))
        if line.startswith(("use ", "pub use ", "--")):
            continue
        opened = re.match(r"( *)(?:module _|(?:abbrev )?mutual$)", line)
        if opened:
            depth, current = len(opened.group(1)) + 2, None
            continue
        if line[:depth].strip():
            depth = len(line) - len(line.lstrip())
        line = line[depth:]
        begun = BEGINS.match(line)
        current = begun.group(1) if begun else current
        if current:
            bodies[current].append(re.sub(r"--.*", "", line))
    return {name: "\n".join(lines) for name, lines in bodies.items()}, names


def all_modules():
    modules = {}
    for path in CRATES.glob("*/specs/**/*.antt"):
        crate, _, *rest = path.relative_to(CRATES).with_suffix("").parts
        modules[crate, ".".join(rest)] = module_of(path)
    return modules


def followed(modules, begin):
    """All definitions to which these names lead."""
    seen, left = set(), list(begin)
    while left:
        crate, module, name = left.pop()
        if (crate, module, name) in seen or (crate, module) not in modules:
            continue
        bodies, names = modules[crate, module]
        if name not in bodies:
            left += [names[name]] if name in names and names[name][2] else []
            continue
        seen.add((crate, module, name))
        for word in WORD.findall(bodies[name]):
            head, _, tail = word.partition(".")
            if head in bodies:
                left.append((crate, module, head))
            elif head in names:
                there, file, thing = names[head]
                left.append((there, file, thing or tail.split(".")[0]))
    return seen


def counted():
    """How many definitions the clauses of `run` stand on in each file, how many these are, and how many the clause
    `headline` alone stands on."""
    text = (CRATES / "vh_host/src/host.rt").read_text()
    names = {}
    for line in text.split("\n"):
        names.update(named_by(line.strip()))
    clauses = text[text.index("pub fn run") :].split("\n{")[0].split("\n")

    def stands_on(lines):
        heads = {word.split(".")[0] for line in lines for word in WORD.findall(line)}
        return followed(modules, [names[head] for head in heads if head in names])

    modules = all_modules()
    everything = stands_on(clauses)
    headline = stands_on([line for line in clauses if "ensures headline" in line])
    files = collections.Counter(f"crates/{crate}/specs/{module.replace('.', '/')}.antt" for crate, module, _ in everything)
    return files, len(everything), len(headline)


def main():
    files, everything, headline = counted()
    print(f"{everything} definitions, {headline} of the headline alone")
    for file, count in sorted(files.items()):
        print(f"{file} {count}")


if __name__ == "__main__":
    main()
