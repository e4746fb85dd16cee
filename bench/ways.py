"""Says how many ways lead down crates.txt, since rt sums the files of a crate once for each of them, and twice for each library.

A line that names all that stands below it doubles the ways of each crate above: so it names what its texts name, and takes
what it needs of other crates from one that passes it on. Prints the crates with the most ways, and the lines' names that cost most.

Usage: python3 bench/ways.py [FILE]
"""
import functools
import sys


def read(file):
    """The crates that each crate names, of those that the file lists."""
    named = {}
    with open(file, encoding="utf-8") as text:
        for line in text:
            name, colon, rest = line.partition("#")[0].partition(":")
            if colon:
                named[name.strip()] = rest.split()
    return {name: [it for it in uses if it in named] for name, uses in named.items()}


def counted(named):
    """For each crate, how many ways lead down from it, itself counted."""

    @functools.lru_cache(None)
    def ways(name):
        return 1 + sum(ways(it) for it in named[name])

    return {name: ways(name) for name in named}


def uses_of(named):
    """For each crate, on how many ways from any crate it is come to."""
    above = {name: [it for it in named if name in named[it]] for name in named}

    @functools.lru_cache(None)
    def come(name):
        return 1 + sum(come(it) for it in above[name])

    return {name: come(name) for name in named}


def main(file="crates.txt"):
    named = read(file)
    down, come = counted(named), uses_of(named)
    print(f"{len(named)} crates, {sum(down.values())} ways")
    for name in sorted(down, key=down.get, reverse=True)[:12]:
        print(f"{down[name]:8} ways from {name}")
    lines = [(come[name] * down[it], name, it) for name in named for it in named[name]]
    for cost, name, it in sorted(lines, reverse=True)[:12]:
        print(f"{cost:8} ways by {it} in the line of {name}")


if __name__ == "__main__":
    main(*sys.argv[1:])
