#!/usr/bin/env python3
"""The tables, sets, ways and calls that the program `cases` plays, each with what it must come to.

  tests/cases.py          holds crates/cases/stdin and crates/cases/stdout to this list
  tests/cases.py --write  writes both files from it

What a table comes to is written here by hand, from docs/FORMAT.md and docs/REFUSALS.md: a refusal
by its number and place, or the counts of what an accepted table declares and the last of each kind.
What each rule keeps of a set is written here by hand too, from docs/RULES.md, and where each router
sends its packets and what calls on a network answer and alter from docs/PROTOCOL.md.
"""
import itertools
import struct
import sys
from pathlib import Path

ROOT = Path(__file__).resolve().parent.parent / "crates" / "cases"
PROVED = 26

CLIENT, REFLECTOR = 0, 1
CASES = []


def router(cluster, role):
    return bytes([1, cluster, role])


def link(a, b, metric=1):
    return struct.pack(">BBBH", 2, a, b, metric)


def session(a, b):
    return bytes([3, a, b])


def path(exit_point, neighbour_as=100, local_pref=100, as_path_len=2, med=0, exit_cost=0, speaker=1):
    return struct.pack(">BBIIBIHI", 4, exit_point, neighbour_as, local_pref, as_path_len, med, exit_cost, speaker)


def spell(records):
    """The bytes of a table in hexadecimal, with a space before each."""
    return "".join(f" {byte:02X}" for byte in b"".join(records))


def refused(name, number, place, *records):
    CASES.append((name, spell(records), f" {number} at {place}"))


def accepted(name, *records):
    """The counts, and the fields of the last record of each kind."""
    of_kind = [[r for r in records if r[0] == kind] for kind in (1, 2, 3, 4)]
    lines = ["%d routers, %d links, %d sessions, %d paths" % tuple(map(len, of_kind))]
    if of_kind[0]:
        _, cluster, role = of_kind[0][-1]
        lines.append(f"last router cluster {cluster} {('client', 'reflector')[role]}")
    forms = [
        (">xBBH", "last link %d %d metric %d"),
        (">xBB", "last session %d %d"),
        (">xBIIBIHI", "last path exit point %d AS %d preference %d length %d MED %d cost %d speaker %d"),
    ]
    for (form, text), last in zip(forms, of_kind[1:]):
        if last:
            lines.append(text % struct.unpack(form, last[-1]))
    CASES.append((name, spell(records), " " + "\n  ".join(lines)))


def keeps(name, paths, asked, five_stage, compare_always, declared=None):
    """What each rule keeps of a set of numbers, where one router declares these paths; `All` keeps the declared ones."""
    word = sum(1 << p for p in asked)
    kept = {"all": asked if declared is None else declared, "five-stage": five_stage, "compare-always": compare_always}
    result = "".join(f"\n  {rule}" + "".join(f" {p}" for p in numbers) for rule, numbers in kept.items())
    CASES.append((name, f"{spell([router(0, REFLECTOR), *paths])}; {word:016X}", result))


def ways(name, records, asked, *routers, stray=None):
    """Of a set of numbers, for each router its best path, the metric, the routers that a packet meets and the path
    by which it leaves, or nothing; and what is refused behind the last router and the last path. Where the set has
    paths that are not declared, the lowest of these is the stray, and every router is refused."""
    count, paths = (sum(r[0] == kind for r in records) for kind in (1, 4))
    lines = []
    if stray is not None:
        lines += [f"R{v} best 11 at {stray}, trace 11 at {stray}" for v in range(count)]
    else:
        assert len(routers) == count
    for v, found in enumerate(routers):
        if found is None:
            lines.append(f"R{v} - - goes nowhere")
        else:
            best, metric, met, out = found
            lines.append(f"R{v} P{best} {metric} meets {' '.join(map(str, met))} leaves P{out}")
    no_router = f"12 at {count}" if stray is None else f"11 at {stray}"
    no_room = "16 at 32" if stray is None else f"11 at {stray}"
    lines += [
        f"best {no_router}",
        f"metric of a path and at a router 11 at {paths}",
        f"metric at a router 12 at {count}" if paths else "metric at a router 11 at 0",
        f"next hop 12 at {count}",
        f"trace from a router into 31 bytes {no_router}",
        f"trace into 31 bytes {no_room}",
    ]
    word = sum(1 << p for p in asked)
    CASES.append((name, f"{spell(records)} > {word:016X}", "".join(f"\n  {line}" for line in lines)))


def braces(numbers):
    return "{" + " ".join(map(str, numbers)) + "}"


def network(name, records, *calls, rests=None, loads=True):
    """Calls on a network, each with its answer, the routers that advertise another set than before, with that set, and
    whether every router then advertises exactly what the five-stage rule keeps of all injected paths. Where the network
    ends settled and not reopened, it rests with a best path and its metric for each router, or None; and then what is
    refused behind the last router and of short buffers. `misload` loads the bytes of the table without the last one. A
    trace has 32 bytes and a list 512, unless a last word says how many. The program makes each call twice, by itself and
    in one run of all, and says where the two differ, and where a byte is written that no answer tells of."""
    count = sum(r[0] == 1 for r in records)
    lines = []
    for call, answer, *then in calls:
        if answer == "out of place":
            lines.append(f"{call}: {answer}")
        else:
            sets, settled = then
            altered = ", ".join(f"R{v} {braces(numbers)}" for v, numbers in sets.items())
            lines.append(f"{call}: {answer}; {altered or 'nothing altered'}; {'' if settled else 'not '}settled")
    if rests is not None:
        lines += [f"R{v} - -" if found is None else "R{} P{} {}".format(v, *found) for v, found in enumerate(rests)]
    lines.append(f"best 12 at {count}")
    if rests is not None:
        lines += [
            f"trace from a router into 31 bytes 12 at {count}",
            "trace into 31 bytes " + ("16 at 32" if loads else "12 at 0"),
            "list into 511 bytes 16 at 512",
        ]
    script = ", ".join(call for call, *_ in calls)
    CASES.append((name, f"{spell(records)} ! {script}", "".join(f"\n  {line}" for line in lines)))


# one reflector and its client, joined
PAIR = [router(0, REFLECTOR), router(0, CLIENT), link(0, 1)]
# the worked table: two reflectors, each with one client
HEADS = [router(0, REFLECTOR), router(0, CLIENT), router(1, REFLECTOR), router(1, CLIENT)]
LINKS = [link(0, 1, 10), link(0, 2, 1), link(2, 3, 4)]
EXITS = [path(1, 100, med=5, speaker=9), path(3, 100, med=0, speaker=8), path(1, 200, med=7, exit_cost=3, speaker=7)]
# the largest table: router 0 is the reflector of 31 clients
CROWD = [router(0, REFLECTOR)] + [router(0, CLIENT)] * 31
PAIRS = [(0, v) for v in range(1, 32)] + list(itertools.combinations(range(1, 32), 2))
MESH = [link(a, b) for a, b in PAIRS[:128]]
TALKS = [session(a, b) for a, b in itertools.combinations(range(1, 32), 2)][:64]
MANY = [path(p % 32, speaker=p) for p in range(64)]
FULL = CROWD + MESH + TALKS + MANY
# every number of a set of paths
ALL = range(64)

# the worked table
accepted("worked table", *HEADS, *LINKS, *EXITS)
refused("worked table without its third link", 10, 9, *HEADS, *LINKS[:2], *EXITS)
accepted("one reflector alone", router(0, REFLECTOR))

# each refusal
refused("no bytes", 8, 0)
refused("an unknown kind", 1, 0, b"\x07")
refused("kind 0", 1, 3, router(0, REFLECTOR), b"\x00\x00\x00")
refused("kind 5", 1, 3, router(0, REFLECTOR), b"\x05\x00\x00")
refused("kind 255", 1, 3, router(0, REFLECTOR), b"\xff\x00\x00")
refused("a router cut short", 2, 0, router(0, REFLECTOR)[:2])
refused("a router that is only a kind", 2, 3, router(0, REFLECTOR), b"\x01")
refused("a link cut short", 2, 6, *PAIR[:2], link(0, 1)[:4])
refused("a session cut short", 2, 11, *PAIR, session(0, 1)[:2])
refused("a path cut short", 2, 11, *PAIR, path(0)[:20])
refused("a router behind a link", 3, 11, *PAIR, router(0, CLIENT))
refused("a link behind a session", 3, 17, *PAIR[:2], router(0, CLIENT), link(0, 1), session(1, 2), link(0, 2))
refused("a session behind a path", 3, 32, *PAIR, path(0), session(0, 1))
refused("thirty-three routers", 4, 96, *CROWD, router(0, CLIENT))
refused("129 links", 4, 96 + 128 * 5, *CROWD, *MESH, link(30, 31))
refused("65 sessions", 4, 96 + 31 * 5 + 64 * 3, *CROWD, *MESH[:31], *TALKS, session(30, 31))
refused("65 paths", 4, 96 + 31 * 5 + 64 * 21, *CROWD, *MESH[:31], *MANY, path(0))
refused("a link to itself", 6, 11, *PAIR, link(1, 1))
refused("a link again", 6, 11, *PAIR, link(0, 1, 9))
refused("a link again the other way round", 6, 11, *PAIR, link(1, 0, 9))
THREE = [router(0, REFLECTOR), router(0, CLIENT), router(0, CLIENT), link(0, 1), link(1, 2)]
refused("a session with itself", 6, 19, *THREE, session(1, 1))
refused("a session again", 6, 22, *THREE, session(1, 2), session(1, 2))
refused("a session again the other way round", 6, 22, *THREE, session(1, 2), session(2, 1))
accepted("a session beside a link", *THREE, session(1, 2))
refused("a session across two clusters", 7, 27, *HEADS, *LINKS, session(1, 3))
refused("a session with the reflector", 7, 19, *THREE, session(0, 1))
refused("a session of the reflector second", 7, 19, *THREE, session(1, 0))
refused("a session of two reflectors", 7, 27, *HEADS, *LINKS, session(0, 2))
refused("a client without a reflector", 9, 0, router(0, CLIENT))
refused("the lowest client without a reflector", 9, 3, router(0, REFLECTOR), router(1, CLIENT), router(2, CLIENT), link(0, 1), link(0, 2))
refused("a reflector of another cluster does not serve", 9, 0, router(0, CLIENT), router(1, REFLECTOR), link(0, 1))
accepted("a reflector behind its client serves", router(0, CLIENT), router(0, REFLECTOR), link(0, 1))
refused("two routers without a link", 10, 3, router(0, REFLECTOR), router(0, CLIENT))
refused("the lowest router that is not joined", 10, 6, *[router(0, REFLECTOR)] * 5, link(0, 1), link(2, 3), link(3, 4))
accepted("joined by a chain", *[router(0, REFLECTOR)] * 5, link(3, 4), link(2, 3), link(1, 2), link(0, 1))

# of two faults of one record the smaller number
refused("unknown and lower kind", 1, 11, *PAIR, b"\x00\x00\x00")
refused("cut short and lower kind", 2, 11, *PAIR, b"\x01\x00")
refused("cut short and one too many", 2, 96, *CROWD, b"\x01\x00")
refused("cut short and out of range", 2, 6, *PAIR[:2], b"\x02\x09\x09")
refused("cut short and joined to itself", 2, 11, *PAIR, b"\x02\x01\x01")
refused("cut short and no session", 2, 19, *THREE, b"\x03\x00")
refused("lower kind and one too many", 3, 96 + 5, *CROWD, link(0, 1), router(0, CLIENT))
refused("lower kind and out of range", 3, 11, *PAIR, router(32, CLIENT))
refused("lower kind and a pair again", 3, 22, *THREE, session(1, 2), link(0, 1))
refused("lower kind and no session", 3, 40, *THREE, path(0), session(0, 1))
refused("one router too many and out of range", 4, 96, *CROWD, router(32, 2))
refused("one link too many and out of range", 4, 736, *CROWD, *MESH, link(30, 31, 0))
refused("one session too many and out of range", 4, 443, *CROWD, *MESH[:31], *TALKS, session(32, 1))
refused("one path too many and out of range", 4, 1595, *CROWD, *MESH[:31], *MANY, path(32, as_path_len=0))
refused("one link too many and a pair again", 4, 736, *CROWD, *MESH, link(0, 1))
refused("one session too many and a pair again", 4, 443, *CROWD, *MESH[:31], *TALKS, session(1, 2))
refused("one session too many and no session", 4, 443, *CROWD, *MESH[:31], *TALKS, session(0, 1))
refused("out of range and joined to itself", 5, 11, *PAIR, link(9, 9))
refused("out of range and a link again", 5, 11, *PAIR, link(0, 1, 0))
refused("out of range and no session", 5, 19, *THREE, session(0, 3))
refused("a session of the reflector with itself", 6, 19, *THREE, session(0, 0))
refused("not served and not joined", 9, 3, router(0, REFLECTOR), router(1, CLIENT))
refused("the lower number goes before the lower router", 9, 6, router(0, REFLECTOR), router(0, CLIENT), router(1, CLIENT), link(0, 2))

# the first faulty record, and the whole only after the last record
refused("a larger number in an earlier record", 5, 3, router(0, REFLECTOR), router(32, CLIENT), b"\x07")
refused("a record's fault before the whole's", 1, 3, router(0, CLIENT), b"\x07")

# each field at both ends of its range
accepted("cluster 31", router(31, REFLECTOR), router(31, CLIENT), link(0, 1))
refused("cluster 32", 5, 0, router(32, REFLECTOR))
refused("cluster 255", 5, 3, router(0, REFLECTOR), router(255, CLIENT))
refused("role 2", 5, 0, router(0, 2))
refused("role 255", 5, 3, router(0, REFLECTOR), router(0, 255))
refused("a link from an undeclared router", 5, 6, *PAIR[:2], link(2, 0))
refused("a link to an undeclared router", 5, 6, *PAIR[:2], link(0, 2))
refused("a link to router 255", 5, 6, *PAIR[:2], link(0, 255))
accepted("a link between routers 30 and 31", *CROWD, *MESH[:31], link(30, 31))
refused("metric 0", 5, 6, *PAIR[:2], link(0, 1, 0))
accepted("metric 1", *PAIR[:2], link(0, 1, 1))
accepted("metric 255", *PAIR[:2], link(0, 1, 255))
accepted("metric 256", *PAIR[:2], link(0, 1, 256))
accepted("metric 65535", *PAIR[:2], link(0, 1, 65535))
refused("a session from an undeclared router", 5, 19, *THREE, session(3, 1))
refused("a session to an undeclared router", 5, 19, *THREE, session(1, 3))
accepted("a session between clients 30 and 31", *CROWD, *MESH[:31], session(30, 31))
accepted("an exit at router 0", *PAIR, path(0))
accepted("an exit at the last router", *PAIR, path(1))
refused("an exit at an undeclared router", 5, 11, *PAIR, path(2))
refused("an exit at router 255", 5, 11, *PAIR, path(255))
refused("AS-path length 0", 5, 11, *PAIR, path(0, as_path_len=0))
accepted("AS-path length 1", *PAIR, path(0, as_path_len=1))
accepted("AS-path length 255", *PAIR, path(0, as_path_len=255))
accepted("all other fields 0", *PAIR, path(0, 0, 0, 1, 0, 0, 0))
accepted("all other fields largest", *PAIR, path(0, 2**32 - 1, 2**32 - 1, 255, 2**32 - 1, 2**16 - 1, 2**32 - 1))

# the limits
accepted("thirty-two routers", *CROWD, *MESH[:31])
accepted("the longest table", *FULL)
refused("one byte behind the longest table", 1, 2272, *FULL, b"\x05")
refused("one path behind the longest table", 4, 2272, *FULL, path(0))

# what the rules keep of the worked table's paths, here all at one router
SOLE = [path(0, 100, med=5, speaker=9), path(0, 100, med=0, speaker=8), path(0, 200, med=7, exit_cost=3, speaker=7)]
keeps("of all three paths", SOLE, [0, 1, 2], [1, 2], [1])
keeps("of the first and the last", SOLE, [0, 2], [0, 2], [0])
keeps("of the first two", SOLE, [0, 1], [1], [1])
keeps("of the last two", SOLE, [1, 2], [1, 2], [1])
for p in range(3):
    keeps(f"of path {p} alone", SOLE, [p], [p], [p])
keeps("of no path", SOLE, [], [], [])
# numbers that are not declared
keeps("of every number", SOLE, ALL, [1, 2], [1], [0, 1, 2])
keeps("of undeclared numbers alone", SOLE, [3, 4, 63], [], [], [])
keeps("of one path and the number behind the last", SOLE, [0, 3], [0], [0], [0])
keeps("of every number where no path is declared", [], ALL, [], [], [])
keeps("of no number where no path is declared", [], [], [], [])
# each stage decides before those behind it
keeps("a higher preference beats a shorter path and a lower MED", [path(0, local_pref=9, as_path_len=9, med=9), path(0, local_pref=8, as_path_len=1, med=0)], [0, 1], [0], [0])
keeps("a shorter path beats a lower MED", [path(0, as_path_len=2, med=9), path(0, as_path_len=3, med=0)], [0, 1], [0], [0])
keeps("a shorter path through another neighbour beats a longer one", [path(0, 1, as_path_len=3), path(0, 2, as_path_len=2)], [0, 1], [1], [1])
keeps("a longer path hides no MED", [path(0, as_path_len=2, med=9), path(0, as_path_len=3, med=0), path(0, as_path_len=2, med=8)], [0, 1, 2], [2], [2])
keeps("MED through another neighbour", [path(0, 1, med=9), path(0, 2, med=0)], [0, 1], [0, 1], [1])
keeps("MED within each of two neighbours", [path(0, 1, med=9), path(0, 2, med=3), path(0, 1, med=8), path(0, 2, med=4)], range(4), [1, 2], [1])
keeps("neighbours that take turns", [path(0, p % 3, med=p // 3) for p in range(9)], range(9), [0, 1, 2], [0, 1, 2])
keeps("the speaker, the exit cost and the number decide nothing", [path(0, exit_cost=c, speaker=s) for c, s in ((0, 9), (7, 1), (3, 5))], range(3), range(3), range(3))
# 64 paths
keeps("64 equal paths", [path(0)] * 64, ALL, ALL, ALL)
keeps("64 preferences, the highest last", [path(0, local_pref=p) for p in ALL], ALL, [63], [63])
keeps("64 preferences, the highest first", [path(0, local_pref=99 - p) for p in ALL], ALL, [0], [0])
keeps("64 lengths, the shortest last", [path(0, as_path_len=64 - p) for p in ALL], ALL, [63], [63])
keeps("64 MEDs of one neighbour, the lowest last", [path(0, med=63 - p) for p in ALL], ALL, [63], [63])
keeps("64 MEDs of 64 neighbours", [path(0, p, med=63 - p) for p in ALL], ALL, ALL, [63])
keeps("64 neighbours, all else equal", [path(0, p) for p in ALL], ALL, ALL, ALL)
keeps("two of each of 32 neighbours, the lower MED second", [path(0, p // 2, med=1 - p % 2) for p in ALL], ALL, range(1, 64, 2), range(1, 64, 2))
keeps("the last path alone", [path(0, local_pref=99 - p) for p in ALL], [63], [63], [63])
# ties at the ends of the range
TOP = 2**32 - 1
keeps("ties at the largest values", [path(0, TOP, TOP, 255, TOP), path(0, TOP, TOP, 255, TOP), path(0, TOP, TOP - 1, 255, 0)], [0, 1, 2], [0, 1], [0, 1])
keeps("the largest MED and one below", [path(0, TOP, med=TOP), path(0, TOP, med=TOP - 1)], [0, 1], [1], [1])
keeps("ties at the smallest values", [path(0, 0, 0, 1, 0), path(0, 0, 0, 1, 0), path(0, 0, 0, 2, 0)], [0, 1, 2], [0, 1], [0, 1])
keeps("the largest and the smallest preference", [path(0, local_pref=0), path(0, local_pref=TOP)], [0, 1], [1], [1])
keeps("the largest and the smallest neighbour", [path(0, 0, med=TOP), path(0, TOP, med=TOP)], [0, 1], [0, 1], [0, 1])

# which paths the routers of the worked table take
WORKED = [*HEADS, *LINKS, *EXITS]
KEPT = [(1, 5, [0, 2, 3], 1), (2, 3, [1], 2), (1, 4, [2, 3], 1), (1, 0, [3], 1)]
ways("ways of the paths that are kept of all", WORKED, [1, 2], *KEPT)
ways("ways where a path is withdrawn", WORKED, [0, 2], (0, 10, [0, 1], 0), (0, 0, [1], 0), (0, 11, [2, 0, 1], 0), (0, 15, [3, 2, 0, 1], 0))
ways("ways of no path", WORKED, [], *[None] * 4)
ways("ways of undeclared paths alone", WORKED, [3, 63], stray=3)
ways("ways of two paths and undeclared ones", WORKED, [1, 2, 3, 40, 63], stray=3)
ways("ways of every path and one that is not declared", WORKED, [0, 1, 2, 40], stray=40)
ways("ways of 63 paths and the one behind them", [router(0, REFLECTOR)] + [path(0)] * 63, ALL, stray=63)
ways("ways where no path is declared", [*HEADS, *LINKS], [], *[None] * 4)
ways("ways of all numbers where no path is declared", [*HEADS, *LINKS], ALL, stray=0)
ways("ways of a router alone", [router(0, REFLECTOR), path(0, exit_cost=9)], [0], (0, 9, [0], 0))
# a line of 32 routers with the largest metrics and the largest exit cost
LINE = CROWD + [link(v, v + 1, 65535) for v in range(31)]
ways("ways along the longest line", LINE + [path(31, exit_cost=65535)], [0], *[(0, (32 - v) * 65535, range(v, 32), 0) for v in range(32)])
ways("ways back along the longest line", LINE + [path(0)], [0], *[(0, v * 65535, range(v, -1, -1), 0) for v in range(32)])
# a ring of six: from router 0 both ways are as long, and the lower neighbour is taken
RING = CROWD[:6] + [link(v, (v + 1) % 6, 7) for v in range(6)]
ways("ways round a ring", RING + [path(3)], [0], (0, 21, [0, 1, 2, 3], 0), (0, 14, [1, 2, 3], 0), (0, 7, [2, 3], 0), (0, 0, [3], 0), (0, 7, [4, 3], 0), (0, 14, [5, 4, 3], 0))
ways("ways round a ring to router 0", RING + [path(0)], [0], (0, 0, [0], 0), (0, 7, [1, 0], 0), (0, 14, [2, 1, 0], 0), (0, 21, [3, 2, 1, 0], 0), (0, 14, [4, 5, 0], 0), (0, 7, [5, 0], 0))
# a star: the metric from its middle to router v is v
STAR = CROWD[:9] + [link(0, v, v) for v in range(1, 9)]
ways("ways over a star", STAR + [path(5), path(2, exit_cost=10)], [0, 1], (0, 5, [0, 5], 0), (0, 6, [1, 0, 5], 0), (1, 10, [2], 1),
     (0, 8, [3, 0, 5], 0), (0, 9, [4, 0, 5], 0), (0, 0, [5], 0), (0, 11, [6, 0, 5], 0), (0, 12, [7, 0, 5], 0), (0, 13, [8, 0, 5], 0))
# a full mesh of 16: straight to the exit point, or, where every detour is as long, over every router between
STRAIGHT = CROWD[:16] + [link(a, b, 3) for a, b in itertools.combinations(range(16), 2)]
ways("ways over a full mesh", STRAIGHT + [path(9, exit_cost=1)], [0], *[(0, 1, [9], 0) if v == 9 else (0, 4, [v, 9], 0) for v in range(16)])
LEVEL = CROWD[:16] + [link(a, b, 10 * (b - a)) for a, b in itertools.combinations(range(16), 2)]
ways("ways over a full mesh where detours are as long", LEVEL + [path(15)], [0], *[(0, 10 * (15 - v), range(v, 16), 0) for v in range(16)])
ways("ways down a full mesh where detours are as long", LEVEL + [path(0)], [0], *[(0, 10 * v, [v, 0] if v else [0], 0) for v in range(16)])
# a long link is passed by where two short ones lead round it
ROUND = [*CROWD[:3], link(0, 2, 9), link(1, 0, 3), link(2, 1, 3)]
ways("ways round a long link", ROUND + [path(2)], [0], (0, 6, [0, 1, 2], 0), (0, 3, [1, 2], 0), (0, 0, [2], 0))
# several exits at one router: a router with an exit of its own looks at no other
SEVERAL = [*CROWD[:3], link(0, 1, 1), link(1, 2, 1), path(1, exit_cost=5, speaker=1), path(1, exit_cost=3, speaker=8), path(1, exit_cost=3, speaker=7), path(0, exit_cost=3, speaker=1)]
ways("ways with several exits at one router", SEVERAL, range(4), (3, 3, [0], 3), (2, 3, [1], 2), (2, 4, [2, 1], 2))
ways("ways with a worse exit of one's own", [*CROWD[:2], link(0, 1, 1), path(0, exit_cost=9), path(1)], [0, 1], (0, 9, [0], 0), (1, 0, [1], 1))
# ties go by the speaker, and then by the number
SIDES = [*CROWD[:3], link(0, 1, 4), link(0, 2, 4)]
ways("a tie that the speaker decides", SIDES + [path(1, speaker=6), path(2, speaker=5)], [0, 1], (1, 4, [0, 2], 1), (0, 0, [1], 0), (1, 0, [2], 1))
ways("a tie that the number decides", SIDES + [path(2, speaker=5), path(1, speaker=5)], [0, 1], (0, 4, [0, 2], 0), (1, 0, [1], 1), (0, 0, [2], 0))
ways("a tie at the largest speakers", SIDES + [path(1, speaker=TOP), path(2, speaker=TOP - 1)], [0, 1], (1, 4, [0, 2], 1), (0, 0, [1], 0), (1, 0, [2], 1))
ways("a lower metric before a lower speaker", SIDES + [path(1, exit_cost=1, speaker=1), path(2, speaker=9)], [0, 1], (1, 4, [0, 2], 1), (0, 1, [1], 0), (1, 0, [2], 1))
ways("ties of 64 equal paths", [router(0, REFLECTOR)] + [path(0)] * 64, ALL, (0, 0, [0], 0))
ways("of 64 paths the last", [router(0, REFLECTOR)] + [path(0, exit_cost=99 - p) for p in ALL], ALL, (63, 36, [0], 63))
# a packet leaves at a router on the way that has an exit of its own, whatever its first router reckoned
ways("a packet that leaves early", [*CROWD[:3], link(0, 1, 1), link(1, 2, 1), path(2), path(1, exit_cost=100)], [0, 1], (0, 2, [0, 1], 1), (1, 100, [1], 1), (0, 0, [2], 0))

# calls on networks, behind all other lines: the worked table's runs, settles, and loses a path
LOADED = ("load", "done", {}, True)
INJECTED = [LOADED, ("inject 0", "done", {1: [0]}, False), ("inject 1", "done", {3: [1]}, False), ("inject 2", "done", {1: [0, 2]}, False)]
ONE_STEP = [*INJECTED, ("step 0", "done", {0: [0, 2]}, False)]
TWO_STEPS = [*ONE_STEP, ("step 0 2", "done", {2: [1, 2]}, False)]
SETTLED = [*TWO_STEPS, ("settle", "done", {0: [1, 2], 1: [1, 2], 3: [1, 2]}, True)]
REOPENED = [*SETTLED, ("reopen", "done", {}, True)]
LOST = [*REOPENED, ("withdraw 1", "done", {3: [2]}, False)]


def bests(settled, *answers):
    return [(f"best {v}", answer, {}, settled) for v, answer in enumerate(answers)]


def traces(*answers):
    return [(f"trace {v}", answer, {}, True) for v, answer in enumerate(answers)]


network("a network before any step", WORKED, *INJECTED, *bests(False, "none", "P0", "none", "P1"))
network("a step of router 0", WORKED, *ONE_STEP, *bests(False, "P0", "P0", "none", "P1"))
network("a step of routers 0 and 2", WORKED, *TWO_STEPS, *bests(False, "P0", "P0", "P1", "P1"))
network("a network that settles", WORKED, *SETTLED, *bests(True, "P1", "P2", "P1", "P1"),
        *traces("meets 0 2 3 leaves P1", "meets 1 leaves P2", "meets 2 3 leaves P1", "meets 3 leaves P1"),
        rests=[(1, 5), (2, 3), (1, 4), (1, 0)])
network("a path is withdrawn", WORKED, *LOST, *bests(False, "P1", "P2", "P1", "P2"))
network("a network that settles without it", WORKED, *LOST,
        ("settle", "done", {0: [0, 2], 1: [0, 2], 2: [0, 2], 3: [0, 2]}, True), *bests(True, "P0", "P0", "P0", "P0"),
        *traces("meets 0 1 leaves P0", "meets 1 leaves P0", "meets 2 0 1 leaves P0", "meets 3 2 0 1 leaves P0"),
        rests=[(0, 10), (0, 0), (0, 11), (0, 15)])
network("a withdrawn path does not come back", WORKED, *LOST, ("step 3", "done", {}, False), ("step 2", "done", {2: [2]}, False),
        ("step 3", "done", {}, False), ("step 0", "done", {0: [2]}, False), ("step 1", "done", {1: [0, 2]}, False), ("step 0", "done", {0: [0, 2]}, False),
        ("step 2", "done", {2: [0, 2]}, False), ("step 3", "done", {3: [0, 2]}, True))
# the routers of a step read their peers as they stood before it, and a router that is not named stays as it is
network("steps of all at once", WORKED, *INJECTED, ("step 0 1 2 3", "done", {0: [0, 2], 2: [1]}, False),
        ("step 3 2 1 0", "done", {0: [1, 2], 2: [1, 2]}, False), ("step 0 1 2 3", "done", {1: [1, 2], 3: [1, 2]}, True),
        ("step 0 1 2 3", "done", {}, True))
# a router that is restarted tells nobody
network("routers restart", WORKED, *REOPENED, ("restart 0", "done", {0: []}, False), *bests(False, "none", "P2", "P1", "P1"),
        ("step 1 2 3", "done", {1: [0, 2], 2: [1]}, False), ("step 0", "done", {0: [1, 2]}, False),
        ("restart 1", "done", {}, False), ("step 1 2", "done", {1: [1, 2], 2: [1, 2]}, True), ("step 3", "done", {}, True),
        ("restart 3", "done", {3: [1]}, False), ("settle", "done", {3: [1, 2]}, True), rests=[(1, 5), (2, 3), (1, 4), (1, 0)])

# every refusal of a call, and a refused call alters nothing
network("calls before a table is loaded", WORKED, ("inject 0", "11 at 0", {}, True), ("withdraw 0", "11 at 0", {}, True),
        ("restart 0", "12 at 0", {}, True), ("step", "13 at 0", {}, True), ("step 0", "12 at 0", {}, True), ("step 31", "12 at 31", {}, True),
        ("best 0", "12 at 0", {}, True), ("misload", "2 at 69", {}, True), ("settle", "done", {}, True), ("trace 0", "12 at 0", {}, True),
        rests=[], loads=False)
network("calls that are refused", WORKED, *TWO_STEPS, ("inject 0", "14 at 0", {}, False), ("inject 3", "11 at 3", {}, False),
        ("inject 64", "11 at 64", {}, False), (f"inject {TOP}", f"11 at {TOP}", {}, False), ("withdraw 3", "11 at 3", {}, False),
        ("withdraw 1", "done", {3: []}, False), ("withdraw 1", "15 at 1", {}, False), (f"withdraw {TOP}", f"11 at {TOP}", {}, False),
        ("restart 4", "12 at 4", {}, False), (f"restart {TOP}", f"12 at {TOP}", {}, False), ("step", "13 at 0", {}, False),
        ("step 4", "12 at 4", {}, False), ("step 31 0 7 5", "12 at 5", {}, False), ("best 4", "12 at 4", {}, False),
        (f"best {TOP}", f"12 at {TOP}", {}, False), ("misload", "2 at 69", {}, False), ("inject 1", "done", {3: [1]}, False))
network("a path is injected once more", WORKED, *LOST, ("inject 1", "done", {3: [1, 2]}, True))
network("a table is loaded again", WORKED, *REOPENED, ("load", "done", {0: [], 1: [], 2: [], 3: []}, True), ("inject 1", "done", {3: [1]}, False))
network("a packet where nothing is injected", WORKED, LOADED, ("settle", "done", {}, True), *bests(True, *["none"] * 4), *traces(*["none"] * 4),
        ("trace 4", "12 at 4", {}, True), (f"trace {TOP}", f"12 at {TOP}", {}, True), rests=[None] * 4)
# calls that a network does not offer
network("a trace on a running network", WORKED, *INJECTED, ("trace 0", "out of place"))
network("a reopening of a running network", WORKED, *REOPENED, ("reopen", "out of place"))
for call in "load", "inject 0", "withdraw 0", "restart 0", "step 0", "settle":
    network(f"{call} on a settled network", WORKED, *SETTLED, (call, "out of place"), rests=[(1, 5), (2, 3), (1, 4), (1, 0)])
# two reflectors of one cluster pass to each other only the paths that leave at the sender
TWINS = [router(0, REFLECTOR), router(0, REFLECTOR), router(0, CLIENT), link(0, 1, 3), link(0, 2, 4), path(2), path(1)]
network("two reflectors of one cluster", TWINS, LOADED, ("inject 0", "done", {2: [0]}, False), ("step 0", "done", {0: [0]}, False),
        ("inject 1", "done", {1: [1]}, False), ("step 0 1", "done", {0: [0, 1], 1: [0, 1]}, False), ("step 2", "done", {2: [0, 1]}, True),
        ("settle", "done", {}, True), rests=[(1, 3), (1, 0), (0, 0)])
network("a twin does not reflect to the other", TWINS, LOADED, ("inject 0", "done", {2: [0]}, False), ("step 0", "done", {0: [0]}, False),
        ("withdraw 0", "done", {2: []}, False), ("step 1", "done", {}, False), ("step 0", "done", {0: []}, True))
# a client session, whichever of the two it names first
CLIENTS = [router(0, REFLECTOR), router(0, CLIENT), router(0, CLIENT), link(0, 1), link(0, 2), session(2, 1), path(1), path(2)]
network("two clients in a session", CLIENTS, LOADED, ("inject 0", "done", {1: [0]}, False), ("inject 1", "done", {2: [1]}, False),
        ("step 1", "done", {1: [0, 1]}, False), ("step 2", "done", {2: [0, 1]}, False), ("step 0", "done", {0: [0, 1]}, True))

def questions(settled, v, *answers):
    """What is asked about a router: its best path, that path's metric, what it knows, and what it advertises."""
    return [(f"{word} {v}", answer, {}, settled) for word, answer in zip(("best", "metric", "known", "advertised"), answers)]


def of_all(settled, injected):
    """What is asked of all routers: the injected paths, and whether the network is settled."""
    return [("injected", braces(injected), {}, settled), ("settled", "yes" if settled else "no", {}, settled)]


def unanswered(settled, *routers):
    """No question about a router that is not declared has an answer."""
    return [call for v in routers for call in questions(settled, v, *[f"12 at {v}"] * 4)]


def reports(*calls):
    """Reports of a settled network, with their answers."""
    return [(call, answer, {}, True) for call, answer in calls]


# every question, on networks that run and on settled ones
network("questions before a table is loaded", WORKED, *unanswered(True, 0, 31, TOP), *of_all(True, []))
network("questions where nothing is injected", WORKED, LOADED, *questions(True, 3, "none", "none", "{}", "{}"), *unanswered(True, 4), *of_all(True, []))
network("questions on a running network", WORKED, *TWO_STEPS, *questions(False, 0, "P0", "10", "{0 2}", "{0 2}"),
        *questions(False, 1, "P0", "0", "{0 2}", "{0 2}"), *questions(False, 2, "P1", "4", "{0 1 2}", "{1 2}"),
        *questions(False, 3, "P1", "0", "{1}", "{1}"), *unanswered(False, 4, 32, TOP), *of_all(False, [0, 1, 2]))
network("questions on a settled network", WORKED, *SETTLED, *questions(True, 0, "P1", "5", "{1 2}", "{1 2}"),
        *questions(True, 1, "P2", "3", "{0 1 2}", "{1 2}"), *questions(True, 2, "P1", "4", "{1 2}", "{1 2}"),
        *questions(True, 3, "P1", "0", "{1 2}", "{1 2}"), *unanswered(True, 4, 32, TOP), *of_all(True, [0, 1, 2]),
        rests=[(1, 5), (2, 3), (1, 4), (1, 0)])
network("questions behind a path that is withdrawn", WORKED, *LOST, *questions(False, 0, "P1", "5", "{1 2}", "{1 2}"),
        *questions(False, 3, "P2", "18", "{2}", "{2}"), *unanswered(False, 4), *of_all(False, [0, 2]))
network("questions on a settled network without a path", WORKED, LOADED, ("settle", "done", {}, True), *questions(True, 0, "none", "none", "{}", "{}"),
        *unanswered(True, 4), *of_all(True, []), rests=[None] * 4)
# reports into buffers of several lengths
LISTED = "R0 P1 5, R1 P2 3, R2 P1 4, R3 P1 0"
network("traces into buffers of several lengths", WORKED, *SETTLED,
        *reports(("trace 0 20", "16 at 32"), ("trace 0 31", "16 at 32"), ("trace 0 32", "meets 0 2 3 leaves P1"), ("trace 0 40", "meets 0 2 3 leaves P1"),
                 ("trace 1 40", "meets 1 leaves P2"), ("trace 2 33", "meets 2 3 leaves P1"), ("trace 3 0", "16 at 32"), ("trace 4 40", "12 at 4"),
                 ("trace 4 20", "12 at 4"), (f"trace {TOP} 31", f"12 at {TOP}"), ("trace 0", "meets 0 2 3 leaves P1")),
        rests=[(1, 5), (2, 3), (1, 4), (1, 0)])
network("lists into buffers of several lengths", WORKED, *SETTLED,
        *reports(("list 511", "16 at 512"), ("list 512", LISTED), ("list 600", LISTED), ("list 0", "16 at 512"), ("list 32", "16 at 512"), ("list", LISTED)),
        rests=[(1, 5), (2, 3), (1, 4), (1, 0)])
network("reports where nothing is injected", WORKED, LOADED, ("settle", "done", {}, True),
        *reports(("list", "R0 - -, R1 - -, R2 - -, R3 - -"), ("trace 2 40", "none"), ("trace 2 20", "16 at 32"), ("list 511", "16 at 512")), rests=[None] * 4)
network("reports without a router", WORKED, ("settle", "done", {}, True),
        *reports(("list", "no router"), ("list 600", "no router"), ("list 511", "16 at 512"), ("trace 0 40", "12 at 0")), rests=[], loads=False)
network("reports before and behind a path that is withdrawn", WORKED, *SETTLED, *reports(("list", LISTED), ("trace 3", "meets 3 leaves P1"), ("reopen", "done")),
        ("withdraw 1", "done", {3: [2]}, False), ("settle", "done", {0: [0, 2], 1: [0, 2], 2: [0, 2], 3: [0, 2]}, True),
        *reports(("list 600", "R0 P0 10, R1 P0 0, R2 P0 11, R3 P0 15"), ("trace 3 40", "meets 3 2 0 1 leaves P0")), rests=[(0, 10), (0, 0), (0, 11), (0, 15)])
network("a list on a running network", WORKED, *REOPENED, ("list", "out of place"))
# the longest way, and a list of the longest lines there
FAR = LINE + [path(31, exit_cost=65535)] * 64
FURTHEST = [(63, (32 - v) * 65535) for v in range(32)]
network("reports along the longest line", FAR, LOADED, ("inject 63", "done", {31: [63]}, False), ("settle", "done", {v: [63] for v in range(31)}, True),
        *reports(("trace 0", f"meets {' '.join(map(str, range(32)))} leaves P63"), ("trace 0 31", "16 at 32"), ("metric 0", "2097120"),
                 ("list", ", ".join(f"R{v} P{p} {metric}" for v, (p, metric) in enumerate(FURTHEST)))), rests=FURTHEST)
# two clusters of a reflector and a client each, and the exit that both preferred is withdrawn: that takes three rounds to be
# forgotten, hop by hop, and until then the other exit is kept back; in three more it comes to the last router
LONGEST = [*HEADS, link(0, 1), link(0, 2), link(2, 3), path(1, 1, 200, 1, speaker=1), path(3, 3, 100, 1, speaker=3)]
FALLEN = [LOADED, ("inject 0", "done", {1: [0]}, False), ("inject 1", "done", {3: [1]}, False), ("settle", "done", {0: [0], 2: [0], 3: [0]}, True),
          ("reopen", "done", {}, True), ("withdraw 0", "done", {1: []}, False)]
AT_ONCE = "step 0 1 2 3"
FIVE = [*FALLEN, (AT_ONCE, "done", {0: []}, False), (AT_ONCE, "done", {2: []}, False), ("known 3", "{0 1}", {}, False),
        (AT_ONCE, "done", {3: [1]}, False), (AT_ONCE, "done", {2: [1]}, False), (AT_ONCE, "done", {0: [1]}, False)]
SIX = [*FIVE, (AT_ONCE, "done", {1: [1]}, True)]
network("five rounds that do not settle a network", LONGEST, *FIVE, *questions(False, 1, "none", "none", "{}", "{}"), *of_all(False, [1]))
network("six rounds that settle it", LONGEST, *SIX, *questions(True, 1, "P1", "3", "{1}", "{1}"), *of_all(True, [1]), (AT_ONCE, "done", {}, True))
# of single steps, in an order in which each round carries it no further
INWARDS, OUTWARDS = (3, 2, 0, 1), (1, 0, 2, 3)
SINGLE = [(INWARDS, {0: []}), (INWARDS, {2: []}), (OUTWARDS, {3: [1]}), (OUTWARDS, {2: [1]}), (OUTWARDS, {0: [1]})]
network("six rounds of single steps that settle it", LONGEST, *FALLEN,
        *[(f"step {v}", "done", {u: altered[u] for u in altered if u == v}, False) for order, altered in SINGLE for v in order],
        ("step 1", "done", {1: [1]}, True), *[(f"step {v}", "done", {}, True) for v in (0, 2, 3)])
# a round in which no call alters a set, refused calls and questions among them
network("a quiet round behind six", LONGEST, *SIX, ("step 3 1", "done", {}, True), ("inject 1", "14 at 1", {}, True), ("step", "13 at 0", {}, True),
        ("known 0", "{1}", {}, True), ("step 2", "done", {}, True), ("withdraw 0", "15 at 0", {}, True), ("step 0", "done", {}, True), ("settled", "yes", {}, True))
network("a quiet round behind settling", WORKED, *REOPENED, ("step 2", "done", {}, True), ("best 0", "P1", {}, True), ("step 0 1", "done", {}, True),
        ("step 9", "12 at 9", {}, True), ("step 3", "done", {}, True), ("settle", "done", {}, True), rests=[(1, 5), (2, 3), (1, 4), (1, 0)])
# the limits: 32 routers, and all 64 paths, of which the rule keeps each
# routers 1 and 2 hear of every path at once, by their sessions with all other clients
HEARD = {v: {0, v} | {u for talk in TALKS for u in talk[1:] if v in talk[1:]} for v in range(1, 32)}
network("every path of the longest table", FULL, LOADED, *[(f"inject {p}", "done", {p % 32: range(p % 32, p + 1, 32)}, False) for p in ALL],
        ("step " + " ".join(map(str, range(32))), "done", {0: ALL, **{v: sorted(p for p in ALL if p % 32 in HEARD[v]) for v in HEARD}}, False),
        ("settle", "done", {v: ALL for v in range(3, 32)}, True), ("best 31", "P31", {}, True),
        ("trace 31", "meets 31 leaves P31", {}, True), rests=[(v, 0) for v in range(32)])


def texts():
    stdin = "".join(f"{name}:{given}\n" for name, given, _ in CASES)
    stdout = f"{PROVED} worked cases are proved\n" + "".join(f"{name}:{result}\n" for name, _, result in CASES)
    return {"stdin": stdin, "stdout": stdout}


def main():
    names = [name for name, _, _ in CASES]
    assert len(names) == len(set(names)), "two cases of one name"
    for file, text in texts().items():
        if "--write" in sys.argv:
            (ROOT / file).write_text(text)
        elif not (ROOT / file).is_file() or (ROOT / file).read_text() != text:
            sys.exit(f"crates/cases/{file} is not what tests/cases.py lists: run tests/cases.py --write")
    print(f"{len(CASES)} lines for the program `cases`")


if __name__ == "__main__":
    main()
