#!/usr/bin/env python3
"""Times the proved decision, with its marks, and the same in plain Rust; see bench/history/compare.py.

There is a local ref and a mapping for each ten commits. The first count is of the commits in the graph. The others are of the
complete commits, the known mappings, and the commits that the negotiator received as common and as tips.
"""
import sys
from pathlib import Path

HERE = Path(__file__).resolve().parent
sys.path.insert(0, str(HERE.parent / "history"))
from compare import compare, sizes

compare(HERE, "decide", sizes(10_000, 100_000, 1_000_000))
