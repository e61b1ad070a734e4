#!/usr/bin/env python3
"""Writes the generated script of a number from 1 to 600, which `make` runs (docs/GROUP.md).

    python3 bench/group.py NUMBER
"""
import os
import sys

sys.path.insert(0, os.path.join(os.path.dirname(os.path.abspath(__file__)), os.pardir, "reference"))
import samples
from generated import generated_script

sys.stdout.write(samples.text(generated_script(int(sys.argv[1]))))
