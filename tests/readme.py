#!/usr/bin/env python3
"""The README shows what the programs and the host in C print for their examples."""
import sys
import textwrap
from pathlib import Path

ROOT = Path(__file__).resolve().parent.parent
readme = (ROOT / "README.md").read_text()
report = (ROOT / "examples" / "two-clusters.out").read_text()
if textwrap.indent(report, "    ") not in readme:
    sys.exit("README.md does not show what examples/two-clusters.out has")

COMMAND = "host two-clusters.table 0 2\n"
transcript = (ROOT / "examples" / "host.out").read_text().split("$ ")
printed = next(part.removeprefix(COMMAND) for part in transcript if part.startswith(COMMAND))
if textwrap.indent("$ /tmp/host examples/two-clusters.table 0 2\n" + printed, "    ") not in readme:
    sys.exit("README.md does not show what examples/host.out has")
replayed = (ROOT / "examples" / "oscillation.replayed").read_text()
if textwrap.indent(replayed, "    ") not in readme:
    sys.exit("README.md does not show what examples/oscillation.replayed has")
print("README.md shows what the programs and the host in C print for their examples")
