#!/usr/bin/env python3
"""excitation.py < crates/excitation_replay/stdin: answers each row of the list as RFC 6716, 4.2.7.8.6, says, and prints it as the program
`excitation_replay` has to: NAME answer row .., v*n for four or more equal values. Written from the RFC's text; it shares nothing with the
code."""
import sys
from itertools import groupby

# table 53: offset_Q23 by signal type (inactive, unvoiced, voiced) and offset type (low, high)
OFFSET_Q23 = ((25, 60), (25, 60), (8, 25))
BEFORE = 1000000007


def refusal(seed, signal_type, offset_type, pulse_count, row_length):
    if seed not in range(4):
        return 1
    if signal_type not in range(3) or offset_type not in range(2):
        return 2
    if pulse_count != row_length or pulse_count > 320:
        return 3
    return 0


def excitation(pulses, seed, offset_q23):
    for e_raw in pulses:
        sign = (e_raw > 0) - (e_raw < 0)
        e_q23 = e_raw * 256 - sign * 20 + offset_q23
        seed = (196314165 * seed + 907633515) % 2**32
        yield -e_q23 if seed >= 2**31 else e_q23
        seed = (seed + e_raw) % 2**32


def opened(words):
    for word in words:
        value, _, times = word.partition("*")
        yield from [int(value)] * int(times or 1)


def closed(row):
    for value, run in groupby(row):
        n = len(list(run))
        yield from ["%d*%d" % (value, n)] if n >= 4 else [str(value)] * n


for line in sys.stdin:
    if line.startswith("#") or not line.strip():
        continue
    name, *words = line.split()
    seed, signal_type, offset_type, row_length, *pulses = opened(words)
    answer = refusal(seed, signal_type, offset_type, len(pulses), row_length)
    row = [BEFORE] * row_length
    if answer == 0:
        row = list(excitation(pulses, seed, OFFSET_Q23[signal_type][offset_type]))
    print(" ".join([name, str(answer)] + list(closed(row))))
