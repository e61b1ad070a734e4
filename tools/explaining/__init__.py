"""Finds the fault of a script, with its place and its cause in words.

reader      the text of a script as a tree whose parts know where they stand
faults      what a fault says, and the nearest of several names
grammar     the keys, kinds, forms and instructions that scripts have
form        the first pass: the form of each object
names       the second and third pass: names that stand twice, and names that aren't defined
totals      the fourth pass: what is counted over the whole script
"""
