#!/usr/bin/env python3
"""Times matching and checking refspecs; see bench/build.py.

Usage: run.py [RUNS]

The smallest time of each line counts.
"""
import subprocess
import sys
from pathlib import Path

HERE = Path(__file__).resolve().parent
sys.path.insert(0, str(HERE.parent))
from build import built

with built(HERE) as program:
    for _ in range(int(sys.argv[1]) if len(sys.argv) > 1 else 3):
        subprocess.run([program], check=True)
