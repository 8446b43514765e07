#!/usr/bin/env python3
"""vowel.py > vowel.sheet: a call sheet with 20 ms of a sung vowel at 16000 samples a second, one frame of 4 subframes of 80 samples, coded with
one path. It shows what a call is made of; a real encoder works its numbers out with more care.

vowel.py wav > vowel.wav: the same vowel, 60 ms of it, so three frames, as a WAV file. Before its samples it has a chunk of an odd length with a
remark, which a reader has to walk over.

Nothing but Python's own library."""
import sys
from math import cos, exp, pi, sin
from struct import pack

RATE, L, N_SUBFRAMES, ORDER, SHAPING, LAG = 16000, 80, 4, 16, 16, 128
N = L * N_SUBFRAMES


def vowel(length):
    """pulses of the voice, LAG samples apart, through three resonances of the mouth"""
    out = [0.0] * length
    for start in range(0, length, LAG):
        for hertz, width, height in ((700, 90, 3000), (1220, 110, 1700), (2600, 160, 700)):
            for i in range(start, length):
                t = (i - start) / RATE
                out[i] += height * exp(-pi * width * t) * sin(2 * pi * hertz * t)
    return [round(v) for v in out]


def predictor(x, order):
    """by the autocorrelation of the windowed samples (Levinson and Durbin): x[i] is about the sum of a[k] * x[i - 1 - k]"""
    w = [v * (0.5 - 0.5 * cos(2 * pi * (i + 0.5) / len(x))) for i, v in enumerate(x)]
    r = [sum(w[i] * w[i - k] for i in range(k, len(w))) for k in range(order + 1)]
    r[0] = r[0] * 1.001 + 1
    a, error = [], r[0]
    for k in range(order):
        c = (r[k + 1] - sum(a[j] * r[k - j] for j in range(k))) / error
        a = [a[j] - c * a[k - 1 - j] for j in range(k)] + [c]
        error *= 1 - c * c
    return a


def section(numbers):
    print(len(numbers), *numbers)


def sheet():
    x = vowel(N)
    a = predictor(x, ORDER)
    pred = [round(4096 * v * 0.99 ** (k + 1)) for k, v in enumerate(a)]
    shape = [round(8192 * v * 0.7 ** (k + 1)) for k, v in enumerate(a[:SHAPING])]
    # L, n, prediction order, shaping order, paths, warping, signal type (voiced), offset type, interpolation, seed, Lambda, LTP scale
    section([L, N_SUBFRAMES, ORDER, SHAPING, 1, 0, 2, 0, 4, 1, 900, 14000])
    section(x)
    section(pred + pred)
    section([0, 2000, 9000, 2000, 0] * N_SUBFRAMES)
    section((shape + [0] * (24 - SHAPING)) * N_SUBFRAMES)
    section([3000] * N_SUBFRAMES)
    section([-4000] * N_SUBFRAMES)
    section([0] * N_SUBFRAMES)
    section([65536 * 40] * N_SUBFRAMES)
    section([LAG] * N_SUBFRAMES)


def chunk(name, content):
    """a chunk of a WAV file: name, length, content, and a pad byte where the length is odd"""
    return name + pack('<I', len(content)) + content + bytes(len(content) % 2)


def wav():
    x = vowel(3 * N)
    form = pack('<HHIIHH', 1, 1, RATE, 2 * RATE, 2, 16)  # PCM, channels, samples and bytes a second, bytes a sample, bits a sample
    chunks = b'WAVE' + chunk(b'fmt ', form) + chunk(b'note', b'a vowel, 3 frames') + chunk(b'data', pack(f'<{len(x)}h', *x))
    sys.stdout.buffer.write(chunk(b'RIFF', chunks))


if sys.argv[1:] == []:
    sheet()
elif sys.argv[1:] == ['wav']:
    wav()
else:
    sys.exit('usage: vowel.py > vowel.sheet, or vowel.py wav > vowel.wav')
