#!/usr/bin/env python3
"""Compares the bounds of tools/bounds.py with tables, closed forms and sums of exact fractions; prints differences."""
import fractions
import math
import os
import sys

sys.dont_write_bytecode = True
sys.path.insert(0, os.path.join(os.path.dirname(os.path.dirname(os.path.abspath(__file__))), "tools"))
from bounds import tail, upper

# (count, drawn, doubt): the bound, from tables of exact binomial limits. Those at 0.025 are upper ends of the
# two-sided interval of Clopper and Pearson (1934) at 95 %; those at 0.05 are one-sided.
KNOWN = {
    (0, 10, 0.025): 0.3085, (1, 10, 0.025): 0.4450, (2, 10, 0.025): 0.5561, (5, 10, 0.025): 0.8129,
    (0, 20, 0.025): 0.1684, (0, 100, 0.025): 0.0362, (1, 100, 0.025): 0.0545, (10, 100, 0.025): 0.1762,
    (0, 10, 0.05): 0.2589, (1, 10, 0.05): 0.3942, (2, 10, 0.05): 0.5069, (9, 10, 0.05): 0.9949,
    (0, 59, 0.05): 0.0495, (0, 299, 0.05): 0.00997, (0, 300, 0.05): 0.00994,
}


def exact(count, drawn, share):
    share = fractions.Fraction(share)
    return float(sum(math.comb(drawn, k) * share**k * (1 - share)**(drawn - k) for k in range(count + 1)))


for (count, drawn, doubt), wanted in KNOWN.items():
    got = upper(count, drawn, doubt)
    if abs(got - wanted) > 6e-5:
        print(f"{count} of {drawn} at {doubt}: {got}, and not {wanted}")
for drawn in (1, 2, 7, 100, 1000, 1_000_000):
    if abs(upper(0, drawn) - -math.expm1(math.log(0.05) / drawn)) > 1e-12 + 1e-9 / drawn:
        print(f"0 of {drawn}: {upper(0, drawn)}")
    if drawn > 1 and abs(tail(drawn - 1, drawn, 0.9) - (1 - 0.9**drawn)) > 1e-9:
        print(f"all but one of {drawn}: {tail(drawn - 1, drawn, 0.9)}")
for asked in ((3, 50, 0.1), (49, 50, 0.99), (0, 50, 0.5), (120, 400, 0.3), (17, 400, 0.2), (399, 400, 0.5), (250, 400, 0.4)):
    if abs(tail(*asked) - exact(*asked)) > 1e-10:
        print(f"at most {asked}: {tail(*asked)}, and not {exact(*asked)}")
for count, drawn in ((0, 0), (5, 5)):
    if upper(count, drawn) != 1.0:
        print(f"{count} of {drawn}: {upper(count, drawn)}")
if not all(upper(count, 200) < upper(count + 1, 200) for count in range(200)):
    print("bounds do not rise with the count")
