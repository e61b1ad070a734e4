#!/usr/bin/env python3
"""Reads a file that callgrind wrote, and prints the instructions of the whole program and those of all calls that enter
functions whose name has this word from functions whose name doesn't, with what these call.

    python3 bench/inclusive.py FILE WORD
"""
import re
import sys

names = {}


def name_of(text):
    """A name stands in full where it comes first, and then by its number alone."""
    number, name = re.match(r"\((\d+)\)(?: (.*))?$", text).groups()
    if name is not None:
        names[number] = name
    return names[number]


total, entered = 0, 0
function, callee, is_call = "", "", False
for line in open(sys.argv[1]):
    line = line.rstrip("\n")
    if line.startswith("fn="):
        function = name_of(line[3:])
    elif line.startswith("cfn="):
        callee = name_of(line[4:])
    elif line.startswith("calls="):
        is_call = True
    elif re.match(r"[+*\d-]", line) and " " in line:
        cost = int(line.split()[1])
        if not is_call:
            total += cost
        elif sys.argv[2] in callee and sys.argv[2] not in function:
            entered += cost
        is_call = False
print(total, entered)
