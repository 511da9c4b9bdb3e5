#!/usr/bin/env python3
"""Times the proved walk that marks complete commits, and the same in plain Rust; see bench/history/compare.py.

The count is of the commits in the graph. Each is complete.
"""
import sys
from pathlib import Path

HERE = Path(__file__).resolve().parent
sys.path.insert(0, str(HERE.parent / "history"))
from compare import compare, sizes

compare(HERE, "walk", sizes(250_000, 500_000, 1_000_000, 2_000_000))
