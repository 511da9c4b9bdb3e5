#!/usr/bin/env python3
"""Times the lines of a stream that comes a byte at a time; see bench/build.py.

It prints three lines for each size. The smallest time of each kind counts.
"""
import subprocess
import sys
from pathlib import Path

HERE = Path(__file__).resolve().parent
sys.path.insert(0, str(HERE.parent))
from build import built

with built(HERE) as program:
    subprocess.run([program], check=True)
