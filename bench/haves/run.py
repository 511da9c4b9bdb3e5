#!/usr/bin/env python3
"""Times the haves of a whole walk, and the same in plain Rust; see bench/history/compare.py.

Nothing is common, so each commit is a have. The first count is of the haves, the other of the look-ups of commits.
"""
import sys
from pathlib import Path

HERE = Path(__file__).resolve().parent
sys.path.insert(0, str(HERE.parent / "history"))
from compare import compare, sizes

compare(HERE, "walk", sizes(10_000, 100_000, 1_000_000))
