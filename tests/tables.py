#!/usr/bin/env python3
"""The tables of examples/, record by record.

  tests/tables.py          holds each file to this list
  tests/tables.py --write  writes the files from it

What `settle` and `replay` must print of them stands beside them, worked out by hand from docs/.
"""
import sys
from pathlib import Path

sys.dont_write_bytecode = True
from cases import CLIENT, EXITS, HEADS, LINKS, REFLECTOR, link, path, router

EXAMPLES = Path(__file__).resolve().parent.parent / "examples"

# two reflectors with one client each, an exit at each client: to the own client 10, to that of the other 1
OSCILLATION = [
    *HEADS,
    link(0, 1, 10), link(0, 3, 1), link(1, 2, 1), link(2, 3, 10),
    path(1, 100), path(3, 200, speaker=2),
]
# reflector 0 with clients 1 and 2, reflector 3 with client 4: an exit at each client, two of them through AS 100
MED_CHURN = [
    router(0, REFLECTOR), router(0, CLIENT), router(0, CLIENT), router(1, REFLECTOR), router(1, CLIENT),
    link(0, 1, 4), link(0, 2, 5), link(0, 3, 1), link(3, 4, 12),
    path(1, 100, med=10), path(2, 200, med=5, speaker=2), path(4, 100, med=0, speaker=3),
]
# two reflectors with one client each, in a row 0 3 1 2: each client is next to the reflector of the other
CROSSING_LINKS = [
    *HEADS,
    link(0, 3, 5), link(1, 3, 5), link(1, 2, 5),
    path(0), path(2),
]
# reflector 0 with clients 1 to 7, of which 1 to 6 have an exit, through three neighbours; 6 is reached by way of 7
HUB = [
    router(0, REFLECTOR), *[router(0, CLIENT)] * 7,
    link(0, 1, 1), link(0, 2, 1), link(0, 3, 1), link(0, 4, 2), link(0, 5, 2), link(0, 7, 3), link(6, 7, 1),
    path(1, 100, speaker=1), path(2, 100, speaker=2), path(3, 200, speaker=3),
    path(4, 200, med=10, speaker=4), path(5, 300, speaker=5), path(6, 300, speaker=6),
]
# reflector 1 with clients 0 and 2, in a row 0 1 2: an exit of cost 0 at 2, and one of cost 100 at 1
ON_THE_WAY = [
    router(0, CLIENT), router(0, REFLECTOR), router(0, CLIENT),
    link(0, 1), link(1, 2),
    path(2), path(1, 200, exit_cost=100, speaker=2),
]
# a row of 32 routers, links and exits as dear as can be: reflector 0 with clients 1 to 15, reflector 31 with clients 16 to 30, and
# two exits at each router n, paths 2 n and 2 n + 1, of which the latter has the lower speaker
LONG_ROW = [
    router(0, REFLECTOR), *[router(0, CLIENT)] * 15, *[router(1, CLIENT)] * 15, router(1, REFLECTOR),
    *[link(v, v + 1, 65_535) for v in range(31)],
    *[path(p // 2, exit_cost=65_535, speaker=63 - p) for p in range(64)],
]
TWO_CLUSTERS = [*HEADS, *LINKS, *EXITS]

TABLES = {
    "cut-off": [*HEADS, *LINKS[:2], *EXITS],
    "cut-short": [*TWO_CLUSTERS[:-1], TWO_CLUSTERS[-1][:11]],
    "crossing-links": CROSSING_LINKS,
    "hub": HUB,
    "long-row": LONG_ROW,
    "med-churn": MED_CHURN,
    "no-exits": [router(0, REFLECTOR), router(0, CLIENT), link(0, 1, 7)],
    "on-the-way": ON_THE_WAY,
    "oscillation": OSCILLATION,
    "two-clusters": TWO_CLUSTERS,
}


def main():
    for name, records in TABLES.items():
        file, table = EXAMPLES / f"{name}.table", b"".join(records)
        if "--write" in sys.argv:
            file.write_bytes(table)
        elif not file.is_file() or file.read_bytes() != table:
            sys.exit(f"examples/{name}.table is not what tests/tables.py lists: run tests/tables.py --write")
    unlisted = {file.stem for file in EXAMPLES.glob("*.table")} - TABLES.keys()
    if unlisted:
        sys.exit(f"tests/tables.py does not list these tables of examples/: {', '.join(sorted(unlisted))}")
    print(f"{len(TABLES)} tables of examples/")


main()
