#!/usr/bin/env python3
"""Times a pack through its bands, and a copy of as many bytes; see bench/build.py.

It prints five lines. The smallest time of each kind counts.
"""
import subprocess
import sys
from pathlib import Path

HERE = Path(__file__).resolve().parent
sys.path.insert(0, str(HERE.parent))
from build import built

with built(HERE) as program:
    subprocess.run([program], check=True)
