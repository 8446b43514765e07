#!/usr/bin/env python3
"""docs/RULES.md as a program, read from that text alone: the quantiser, the excitation at the far end, `sheet`,
`hear`, `clean` and `wav`; only whoever added `clean` knew the reference that its stored sheets come from.

    rules.py sheet  < SHEET   prints what `sheet` prints
    rules.py clean  < SHEET   prints what `clean` prints
    rules.py hear   < SHEET   prints what `hear` prints
    rules.py wav    < FILE    prints what `wav` prints
    rules.py stream < CALLS   runs a stream of calls (its form stands at "The stream", below)

Each part follows one heading of docs/RULES.md and names it. Plain and slow on purpose: it is meant to be read beside
the rules. Left out, since none of these programs prints them: the calls from C, and the report (always 0). The two
steps of a WAV file, `find` and `samples`, can be called alone: `wav` never gives the second one a row that it refuses.
"""

import re
import sys

# ---------------------------------------------------------------------------------------------------------------
# Arithmetic
# ---------------------------------------------------------------------------------------------------------------


def wrap32(v):
    """The number from -2^31 to 2^31 - 1 that differs from v by a multiple of 2^32."""
    return ((v + 0x80000000) & 0xFFFFFFFF) - 0x80000000


def low(v):
    """`low b`: the low 16 bits with their sign."""
    return ((v + 0x8000) & 0xFFFF) - 0x8000


def high(v):
    """`high b`: b >> 16."""
    return v >> 16


def low8(v):
    """`as i8`: the low 8 bits with their sign."""
    return ((v + 0x80) & 0xFF) - 0x80


def star(a, b):
    """a ∗ b: the whole product, >> 16. Where the rules add `as i32`, the caller wraps it.

    A sum of such terms is wrapped once, at its end: that is the same word as wrapping each of its sums.
    """
    return (a * b) >> 16


def rounded_shift(v, s):
    """`v` by a rounded shift by s."""
    return ((v >> (s - 1)) + 1) >> 1


def held(v, least, most):
    return max(least, min(most, v))


def saturated(v):
    """Held to 16 bits."""
    return held(v, -32768, 32767)


def headroom(b):
    """The leading zeros of the 32-bit word b, less one; b is 1 or more."""
    return 31 - b.bit_length()


def varied_shift(r, s):
    """The last step of `inverse` and `quotient`. Upwards r is held first, so that the shift loses nothing."""
    if s <= 0:
        return held(r, -0x80000000 >> -s, 0x7FFFFFFF >> -s) << -s
    if s < 32:
        return r >> s
    return 0


def divisor_words(b):
    """The words h, m and v that `inverse` and `quotient` make of b."""
    h = headroom(b)
    m = b << h
    v = (0x7FFFFFFF >> 2) // (m >> 16)
    return h, m, v


def inverse(b, Q):
    """About 2^Q / b, for b of 1 or more."""
    h, m, v = divisor_words(b)
    e = wrap32(wrap32((1 << 29) - star(m, low(v))) << 3)
    r = wrap32(wrap32(v << 16) + wrap32(star(e, v)))
    return varied_shift(r, 61 - h - Q)


def quotient(a, b, Q):
    """About 2^Q · a / b, for a and b of 1 or more."""
    h, m, v = divisor_words(b)
    x = a << headroom(a)
    r = star(x, low(v))
    rest = wrap32(x - wrap32(((m * r) >> 32) << 3))
    r = wrap32(r + star(rest, low(v)))
    return varied_shift(r, 29 + headroom(a) - h - Q)


def inv31(gain):
    return inverse(gain, 47)


def inv26(gain):
    return rounded_shift(inv31(gain), 5)


# ---------------------------------------------------------------------------------------------------------------
# What a call is given
# ---------------------------------------------------------------------------------------------------------------


class Call:
    """Twelve settings and nine rows that are only read. The row of pulses has always the right length here."""

    def __init__(self, settings, rows):
        self.settings = settings
        self.L = settings[0]
        self.n = settings[1]
        self.predict_order = settings[2]
        self.shaping_order = settings[3]
        self.path_count = settings[4]
        self.warping_Q16 = settings[5]
        self.signal_type = settings[6]
        self.offset_type = settings[7]
        self.interpolation = settings[8]
        self.seed = settings[9]
        self.Lambda_Q10 = settings[10]
        self.LTP_scale_Q14 = settings[11]
        self.x16 = rows[0]
        self.PredCoef_Q12 = rows[1]
        self.LTPCoef_Q14 = rows[2]
        self.AR_Q13 = rows[3]
        self.HarmShapeGain_Q14 = rows[4]
        self.Tilt_Q14 = rows[5]
        self.LF_shp_Q14 = rows[6]
        self.Gains_Q16 = rows[7]
        self.pitchL = rows[8]

    @property
    def voiced(self):
        return self.signal_type == 2


class State:
    """What is taken and handed back. `rand_seed` is no word of the library's: the streams have it, it is kept."""

    def __init__(self):
        """A fresh state. Its lagPrev is 100 (request E3; 0 before)."""
        self.xq = [0] * 640
        self.sLTP_shp_Q14 = [0] * 640
        self.sLPC_Q14 = [0] * 96
        self.sAR2_Q14 = [0] * 24
        self.sLF_AR_shp_Q14 = 0
        self.sDiff_shp_Q14 = 0
        self.lagPrev = 100
        self.sLTP_buf_idx = 0
        self.sLTP_shp_buf_idx = 0
        self.rand_seed = 0
        self.prev_gain_Q16 = 65536
        self.rewhite_flag = 0


# ---------------------------------------------------------------------------------------------------------------
# Which number comes back
# ---------------------------------------------------------------------------------------------------------------


def lengths_refused(call):
    return call.L not in (40, 60, 80) or call.n not in (2, 4)


def orders_refused(call):
    wanted = 16 if call.L == 80 else 10
    if call.predict_order != wanted:
        return True
    return call.shaping_order % 2 != 0 or not 2 <= call.shaping_order <= 24


def paths_refused(call):
    return not 1 <= call.path_count <= 4


def kinds_refused(call):
    good = (
        0 <= call.signal_type <= 2
        and 0 <= call.offset_type <= 1
        and 0 <= call.interpolation <= 4
        and 0 <= call.seed <= 3
    )
    return not good


def rows_refused(call):
    n = call.n
    wanted = [
        (call.x16, n * call.L),
        (call.PredCoef_Q12, 32),
        (call.LTPCoef_Q14, 5 * n),
        (call.AR_Q13, 24 * n),
        (call.HarmShapeGain_Q14, n),
        (call.Tilt_Q14, n),
        (call.LF_shp_Q14, n),
        (call.Gains_Q16, n),
        (call.pitchL, n),
    ]
    return any(len(row) != length for row, length in wanted)


def gains_refused(call, state):
    return state.prev_gain_Q16 < 1 or any(gain < 1 for gain in call.Gains_Q16)


def lags_refused(call, state):
    """The paragraph "Lags"."""

    def good(lag):
        return 2 * call.L // 5 <= lag <= 18 * call.L // 5

    if call.voiced:
        return not all(good(lag) for lag in call.pitchL)
    looked_at = (state.lagPrev, call.pitchL[-1])
    return not all(lag == 0 or good(lag) for lag in looked_at)


def answer_of(call, state):
    """The lowest number that applies. A later test is only made where no earlier one applies: the same number."""
    if lengths_refused(call):
        return 1
    if orders_refused(call):
        return 2
    if paths_refused(call):
        return 3
    if kinds_refused(call):
        return 4
    if rows_refused(call):
        return 5
    if gains_refused(call, state):
        return 6
    if lags_refused(call, state):
        return 7
    return 0


def quantise(call, state):
    """One call: the answer, the seed, the next state and the pulses. A refusal touches nothing."""
    answer = answer_of(call, state)
    if answer != 0:
        return answer, call.seed, state, []
    seed, next_state, pulses = Frame(call, state).run()
    return 0, seed, next_state, pulses


# ---------------------------------------------------------------------------------------------------------------
# The paths at their start
# ---------------------------------------------------------------------------------------------------------------

RING = 40  # words of a ring
PENALTY = 0x7FFFFFFF >> 4


class Path:
    """One way to code the frame so far."""

    def __init__(self, k, call, state):
        self.seed = (k + call.seed) % 4
        self.start_seed = self.seed
        self.RD_Q10 = 0
        self.sAR2_Q14 = list(state.sAR2_Q14)
        self.LF_AR_Q14 = state.sLF_AR_shp_Q14
        self.Diff_Q14 = state.sDiff_shp_Q14
        self.sLPC_Q14 = state.sLPC_Q14[:16] + [0] * 80
        self.RandState = [0] * RING
        self.Q_Q10 = [0] * RING
        self.Xq_Q14 = [0] * RING
        self.Pred_Q15 = [0] * RING
        self.Shape_Q14 = [0] * RING
        self.Shape_Q14[0] = state.sLTP_shp_Q14[4 * call.L - 1]

    def become_copy_of(self, other):
        """A full copy, every word of it."""
        for name, value in vars(other).items():
            if isinstance(value, list):
                value = list(value)
            setattr(self, name, value)

    def scale(self, adj):
        """What "The change of gain" does to a path."""
        self.LF_AR_Q14 = wrap32(star(adj, self.LF_AR_Q14))
        self.Diff_Q14 = wrap32(star(adj, self.Diff_Q14))
        scale_words(self.sLPC_Q14, 0, 16, adj)
        scale_words(self.sAR2_Q14, 0, 24, adj)
        scale_words(self.Pred_Q15, 0, RING, adj)
        scale_words(self.Shape_Q14, 0, RING, adj)


def scale_words(words, start, end, adj):
    """Each word w from start to end - 1 becomes adj ∗ w as i32."""
    for at in range(start, end):
        words[at] = wrap32(star(adj, words[at]))


def place_of_least(costs):
    """The lowest index on ties."""
    return costs.index(min(costs))


def place_of_most(costs):
    """The lowest index on ties."""
    return costs.index(max(costs))


# ---------------------------------------------------------------------------------------------------------------
# What subframe k works with
# ---------------------------------------------------------------------------------------------------------------


class Subframe:
    """Number k of each row, and where the samples stand."""

    def __init__(self, call, state, k):
        L = call.L
        self.k = k
        self.rewhitened = rewhitens(call, k)
        self.first = k * L  # its first sample, in the frame
        self.buf = 4 * L + k * L  # its first sample, in the work row
        if k >= 2 and rewhitens(call, 2):
            self.buf = 4 * L + (k - 2) * L
        self.lag = call.pitchL[k] if call.voiced else state.lagPrev
        self.gain = call.Gains_Q16[k]
        self.gain_before = call.Gains_Q16[k - 1] if k > 0 else state.prev_gain_Q16
        self.inv26 = inv26(self.gain)
        row = 1 if call.interpolation == 4 else k >> 1
        self.prediction = call.PredCoef_Q12[16 * row:16 * row + call.predict_order]
        self.long_term = call.LTPCoef_Q14[5 * k:5 * k + 5]
        self.shaping = call.AR_Q13[24 * k:24 * k + call.shaping_order]
        self.packed_gain = packed_gain(call.HarmShapeGain_Q14[k])
        self.tilt = low(call.Tilt_Q14[k])
        self.LF = call.LF_shp_Q14[k]


def packed_gain(g):
    """The packed harmonic gain: joined by OR, not added."""
    return (g >> 2) | wrap32((g >> 1) << 16)


def rewhitens(call, k):
    """Which subframes are rewhitened."""
    if not call.voiced:
        return False
    return k == 0 or (k == 2 and call.interpolation != 4)


# ---------------------------------------------------------------------------------------------------------------
# One frame
# ---------------------------------------------------------------------------------------------------------------

OFFSETS = [[100, 240], [32, 100]]  # The offset: by signalType >> 1, then by quantOffsetType


def decision_delay(call, state):
    """The decision delay D."""
    delay = min(40, call.L)
    if call.voiced:
        for lag in call.pitchL:
            delay = min(delay, lag - 3)
    elif state.lagPrev > 0:
        delay = min(delay, state.lagPrev - 3)
    return delay


def analysis_filter(given, coefficients):
    """The analysis filter: the first outputs are 0."""
    order = len(coefficients)
    outputs = [0] * order
    for j in range(order, len(given)):
        total = given[j] << 12
        for t in range(order):
            total -= given[j - 1 - t] * coefficients[t]
        outputs.append(saturated(rounded_shift(wrap32(total), 12)))
    return outputs


class Frame:
    """An accepted call."""

    def __init__(self, call, state):
        self.call = call
        self.state = state
        # What is read once
        self.L = call.L
        self.N = call.n * call.L
        self.history = 4 * call.L
        self.D = decision_delay(call, state)
        self.offset = OFFSETS[call.signal_type >> 1][call.offset_type]
        self.warping = low(call.warping_Q16)
        # The paths at their start, and what stands beside them
        self.paths = [Path(k, call, state) for k in range(call.path_count)]
        self.sLTP_Q15 = [0] * 640  # the work row
        self.sLTP = [0] * 640  # the filtered history
        self.delayed_gains = [0] * RING
        self.place = 0  # the ring's place
        self.xq = list(state.xq)
        self.shp = list(state.sLTP_shp_Q14)
        self.pulses = [0] * self.N

    def run(self):
        for k in range(self.call.n):
            sub = Subframe(self.call, self.state, k)
            self.before_the_samples(sub)
            for i in range(self.L):
                self.sample(sub, i)
            self.after_the_samples()
        return self.end()

    # Before the samples of a subframe

    def before_the_samples(self, sub):
        """Three steps, in this order: the flush in the middle, the rewhitening, the change of gain."""
        if sub.rewhitened and sub.k == 2:
            self.flush_in_the_middle()
        if sub.rewhitened:
            self.rewhiten(sub)
            self.fill_work_row(sub)
        if sub.gain != sub.gain_before:
            self.change_gain(sub)

    def winning_path(self):
        """The place of the path of least running cost."""
        return place_of_least([path.RD_Q10 for path in self.paths])

    def flush_in_the_middle(self):
        """The flush in the middle, with its penalty for the others."""
        winner = self.winning_path()
        for k, path in enumerate(self.paths):
            if k != winner:
                path.RD_Q10 = wrap32(path.RD_Q10 + PENALTY)
        self.flush(self.paths[winner], 2 * self.L, self.call.Gains_Q16[1], 14)

    def flush(self, path, end, gain, shift):
        """The path's last D samples go to the places of the frame before `end`. The work row gets nothing."""
        for i in range(self.D):
            at = (self.place + self.D - 1 - i) % RING
            self.hand_out(path, at, end - self.D + i, gain, shift)

    def hand_out(self, path, at, p, gain, shift):
        """The words at ring place `at` go to place p of the frame."""
        self.pulses[p] = low8(rounded_shift(path.Q_Q10[at], 10))
        sample = wrap32(star(path.Xq_Q14[at], gain))
        self.xq[self.history + p] = saturated(rounded_shift(sample, shift))
        self.shp[self.history + p] = path.Shape_Q14[at]

    def rewhiten(self, sub):
        """The rewhitening."""
        start = self.history - sub.lag - 2 - self.call.predict_order
        given = self.xq[start + sub.first:self.history + sub.first]
        self.sLTP[start:self.history] = analysis_filter(given, sub.prediction)

    def fill_work_row(self, sub):
        """The work row."""
        inv = inv31(sub.gain)
        if sub.k == 0:
            inv = wrap32(star(inv, low(self.call.LTP_scale_Q14)) << 2)
        for at in range(self.history - sub.lag - 2, self.history):
            self.sLTP_Q15[at] = star(inv, self.sLTP[at])

    def change_gain(self, sub):
        """The change of gain."""
        adj = quotient(sub.gain_before, sub.gain, 16)
        scale_words(self.shp, sub.first, self.history + sub.first, adj)
        if self.call.voiced and not sub.rewhitened:
            scale_words(self.sLTP_Q15, sub.buf - sub.lag - 2, sub.buf - self.D, adj)
        for path in self.paths:
            path.scale(adj)

    # After the samples of a subframe

    def after_the_samples(self):
        """The last 16 LPC words become the first."""
        for path in self.paths:
            path.sLPC_Q14[0:16] = path.sLPC_Q14[self.L:self.L + 16]

    # The end

    def end(self):
        """The final winner: its seed, the next state, the pulses. No penalty here, and another gain and shift."""
        winner = self.paths[self.winning_path()]
        last_gain = self.call.Gains_Q16[-1]
        self.flush(winner, self.N, last_gain >> 6, 8)
        return winner.start_seed, self.next_state(winner), self.pulses

    def next_state(self, winner):
        """The next state."""
        left = State()
        left.xq = moved_down(self.xq, self.N, self.history)
        left.sLTP_shp_Q14 = moved_down(self.shp, self.N, self.history)
        left.sLPC_Q14 = winner.sLPC_Q14[self.L:self.L + 16] + self.state.sLPC_Q14[16:]
        left.sAR2_Q14 = list(winner.sAR2_Q14)
        left.sLF_AR_shp_Q14 = winner.LF_AR_Q14
        left.sDiff_shp_Q14 = winner.Diff_Q14
        left.lagPrev = self.call.pitchL[-1]
        left.sLTP_buf_idx = self.history + self.N
        if self.call.n == 4 and rewhitens(self.call, 2):
            left.sLTP_buf_idx -= 2 * self.L
        left.sLTP_shp_buf_idx = self.history + self.N
        left.rand_seed = self.state.rand_seed
        left.prev_gain_Q16 = self.call.Gains_Q16[-1]
        left.rewhite_flag = 0
        return left

    # One sample

    def sample(self, sub, i):
        """Sample i of the subframe: what is shared, two candidates each, the choice, what leaves, what is taken."""
        shared = self.what_all_share(sub, i)
        pairs = [self.two_candidates(path, sub, i, shared) for path in self.paths]
        self.place = self.place - 1 if self.place > 0 else RING - 1
        at_delay = (self.place + self.D) % RING
        winner = self.choose_among_paths(pairs, at_delay)
        nothing_leaves = i < self.D and (sub.k == 0 or (sub.k == 2 and sub.rewhitened))
        if not nothing_leaves:
            self.leave(self.paths[winner], sub, i, at_delay)
        for path, pair in zip(self.paths, pairs):
            self.take(path, pair[0], i)
        self.delayed_gains[self.place] = sub.gain >> 6

    # What all paths share

    def what_all_share(self, sub, i):
        """x_Q10, the long-term prediction, n_LTP."""
        x_Q10 = star(sub.inv26, self.call.x16[sub.first + i])
        long_prediction = self.long_term_prediction(sub, i)
        n_LTP = self.harmonic_term(sub, i, long_prediction)
        return x_Q10, long_prediction, n_LTP

    def long_term_prediction(self, sub, i):
        """The long-term prediction."""
        if not self.call.voiced:
            return 0
        total = 2
        for j in range(5):
            total += star(self.sLTP_Q15[sub.buf + i + 2 - sub.lag - j], sub.long_term[j])
        return wrap32(total << 1)

    def harmonic_term(self, sub, i, long_prediction):
        """n_LTP."""
        if sub.lag <= 0:
            return 0
        p = self.history + sub.first + i + 1 - sub.lag
        outer = wrap32(self.shp[p] + self.shp[p - 2])
        t = wrap32(star(outer, low(sub.packed_gain)) + star(self.shp[p - 1], high(sub.packed_gain)))
        return wrap32(long_prediction - wrap32(t << 2))

    # Each path moves on

    def two_candidates(self, path, sub, i, shared):
        """The path's two candidates, the first one first. The path's seed and filter words move on."""
        x_Q10, long_prediction, n_LTP = shared
        path.seed = wrap32(196314165 * path.seed + 907633515)
        n_AR = self.warped_filter(path, sub)
        n_LF = low_frequency_term(path, sub, self.place)
        short = short_prediction(path, sub, i)
        expected = wrap32(wrap32(n_LTP + short) - wrap32(n_AR + n_LF))
        residual = wrap32(x_Q10 - rounded_shift(expected, 4))
        if path.seed < 0:
            residual = wrap32(-residual)
        residual = held(residual, -31744, 30720)
        pair = []
        for level, cost in ordered_levels(residual, self.call.Lambda_Q10, self.offset):
            candidate = Candidate(path, level, cost)
            candidate.work_out(path.seed, long_prediction, short, x_Q10, n_AR, n_LF)
            pair.append(candidate)
        return pair

    def warped_filter(self, path, sub):
        """n_AR. The filter words up to the shaping order are replaced."""
        s = path.sAR2_Q14
        w = self.warping
        order = self.call.shaping_order
        t = wrap32(path.Diff_Q14 + star(s[0], w))
        total = order >> 1
        for j in range(order - 1):
            next_t = wrap32(s[j] + star(wrap32(s[j + 1] - t), w))
            s[j] = t
            total += star(t, sub.shaping[j])
            t = next_t
        s[order - 1] = t
        total += star(t, sub.shaping[order - 1])
        tilted = star(path.LF_AR_Q14, sub.tilt)
        return wrap32(((total << 1) + tilted) << 2)

    # Among the paths

    def choose_among_paths(self, pairs, at_delay):
        """The winner, the penalty, the replacement. What comes back is the winner's index."""
        winner = place_of_least([pair[0].total for pair in pairs])
        wanted = self.paths[winner].RandState[at_delay]
        for path, pair in zip(self.paths, pairs):
            if path.RandState[at_delay] != wanted:
                for candidate in pair:
                    candidate.total = wrap32(candidate.total + PENALTY)
        dearest = place_of_most([pair[0].total for pair in pairs])
        cheapest = place_of_least([pair[1].total for pair in pairs])
        if pairs[cheapest][1].total < pairs[dearest][0].total:
            self.paths[dearest].become_copy_of(self.paths[cheapest])
            pairs[dearest][0] = pairs[cheapest][1]
        return winner

    # What leaves, and what is taken

    def leave(self, path, sub, i, at_delay):
        """What leaves at the place at the delay."""
        p = sub.first + i - self.D
        self.hand_out(path, at_delay, p, self.delayed_gains[at_delay], 8)
        self.sLTP_Q15[sub.buf + i - self.D] = path.Pred_Q15[at_delay]

    def take(self, path, candidate, i):
        """Each path takes its first candidate."""
        path.LF_AR_Q14 = candidate.LF_AR_Q14
        path.Diff_Q14 = candidate.Diff_Q14
        path.RD_Q10 = candidate.total
        path.sLPC_Q14[16 + i] = candidate.xq_Q14
        path.Xq_Q14[self.place] = candidate.xq_Q14
        path.Q_Q10[self.place] = candidate.level
        path.Pred_Q15[self.place] = wrap32(candidate.e << 1)
        path.Shape_Q14[self.place] = candidate.shape_Q14
        path.seed = wrap32(path.seed + rounded_shift(candidate.level, 10))
        path.RandState[self.place] = path.seed


def moved_down(words, start, length):
    """Words 0 to length - 1 become those from start on; the words from length on stay."""
    return words[start:start + length] + words[length:]


def low_frequency_term(path, sub, place):
    """n_LF. The ring's place is still that of the sample before."""
    shape = path.Shape_Q14[place]
    return wrap32((star(shape, low(sub.LF)) + star(path.LF_AR_Q14, high(sub.LF))) << 2)


def short_prediction(path, sub, i):
    """The short prediction."""
    lpc = path.sLPC_Q14
    total = len(sub.prediction) >> 1
    for j, coefficient in enumerate(sub.prediction):
        total += star(lpc[15 + i - j], coefficient)
    return wrap32(total << 4)


# ---------------------------------------------------------------------------------------------------------------
# The two candidates
# ---------------------------------------------------------------------------------------------------------------


def level_of(pulse, offset):
    """The level of a pulse."""
    level = 1024 * pulse + offset
    if pulse > 0:
        level -= 80
    if pulse < 0:
        level += 80
    return level


def lower_candidate(residual, Lambda, offset):
    """The lower candidate, a pulse. Python's // is the floor."""
    q = residual - offset
    if Lambda <= 2048:
        return q // 1024
    d = Lambda // 2 - 512
    if q > d:
        return (q - d) // 1024
    if q < -d:
        return (q + d) // 1024
    return -1 if q < 0 else 0


def cost_of(level, residual, Lambda):
    """The cost of a level."""
    price = abs(level) * low(Lambda)
    return (price + (residual - level) ** 2) // 1024


def ordered_levels(residual, Lambda, offset):
    """Two pairs of level and cost, the cheaper one first; a tie takes the upper one first."""
    pulse = lower_candidate(residual, Lambda, offset)
    lower_level = level_of(pulse, offset)
    upper_level = level_of(pulse + 1, offset)
    lower = (lower_level, cost_of(lower_level, residual, Lambda))
    upper = (upper_level, cost_of(upper_level, residual, Lambda))
    if lower[1] < upper[1]:
        return lower, upper
    return upper, lower


class Candidate:
    """A candidate's words."""

    def __init__(self, path, level, cost):
        self.level = level
        self.total = wrap32(path.RD_Q10 + cost)

    def work_out(self, seed, long_prediction, short, x_Q10, n_AR, n_LF):
        excitation = wrap32(self.level << 4)
        if seed < 0:
            excitation = wrap32(-excitation)
        self.e = wrap32(excitation + long_prediction)
        self.xq_Q14 = wrap32(self.e + short)
        self.Diff_Q14 = wrap32(self.xq_Q14 - wrap32(x_Q10 << 4))
        self.LF_AR_Q14 = wrap32(self.Diff_Q14 - n_AR)
        self.shape_Q14 = wrap32(self.LF_AR_Q14 - n_LF)


# ---------------------------------------------------------------------------------------------------------------
# What counts
# ---------------------------------------------------------------------------------------------------------------


def prediction_counts(call, place):
    """Whether this place of `PredCoef_Q12` counts."""
    row, slot = divmod(place, 16)
    if slot >= call.predict_order:
        return False
    if call.interpolation == 4:
        return row == 1
    return row == 0 or call.n == 4


def kept(row, counts):
    """The row with 0 at each place that doesn't count."""
    return [word if counts(place) else 0 for place, word in enumerate(row)]


def what_counts(call, state):
    """The ten sections of an accepted call, with 0 for what doesn't count and without the bits that don't."""
    settings = list(call.settings)
    settings[5] = low(call.warping_Q16)
    settings[11] = low(call.LTP_scale_Q14) if call.voiced else 0
    return [
        settings,
        call.x16,
        kept(call.PredCoef_Q12, lambda place: prediction_counts(call, place)),
        kept(call.LTPCoef_Q14, lambda place: call.voiced),
        kept(call.AR_Q13, lambda place: place % 24 < call.shaping_order),
        kept(call.HarmShapeGain_Q14, lambda place: call.voiced or state.lagPrev != 0),
        [low(tilt) for tilt in call.Tilt_Q14],
        call.LF_shp_Q14,
        call.Gains_Q16,
        kept(call.pitchL, lambda place: call.voiced or place == call.n - 1),
    ]


# ---------------------------------------------------------------------------------------------------------------
# The far end's excitation
# ---------------------------------------------------------------------------------------------------------------


def excitation_answer(pulses, seed, signal_type, offset_type, room):
    """The refusals of the reader; `room` is the length of the row to write."""
    if not 0 <= seed <= 3:
        return 1
    if not 0 <= signal_type <= 2 or not 0 <= offset_type <= 1:
        return 2
    if len(pulses) != room or room > 320:
        return 3
    return 0


def excitation_values(pulses, seed, signal_type, offset_type):
    """The values e_Q23."""
    offsets = [8, 25] if signal_type == 2 else [25, 60]
    offset = offsets[offset_type]
    values = []
    for x in pulses:
        seed = (196314165 * seed + 907633515) % 2**32
        value = 256 * x + offset
        if x > 0:
            value -= 20
        if x < 0:
            value += 20
        if seed >= 2**31:
            value = -value
        values.append(value)
        seed = (seed + x) % 2**32
    return values


# ---------------------------------------------------------------------------------------------------------------
# The call sheet
# ---------------------------------------------------------------------------------------------------------------

MOST_BYTES = 65536
WORD16 = (-32768, 32767)
WORD32 = (-2**31, 2**31 - 1)

# For each section: the least and the greatest count, and the range of its numbers.
SHEET_LAYOUT = [(12, 12, WORD32)] + [(0, 320, WORD16)] * 4 + [(0, 320, WORD32)] * 5
HEAR_LAYOUT = [(3, 3, WORD32), (0, 320, (-128, 127))]


def words_of(data):
    """Words: bytes 32 and 10 separate, and nothing else does."""
    pieces = data.replace(b"\n", b" ").split(b" ")
    return [piece for piece in pieces if piece]


def number_of(word):
    """Numbers: an optional minus and 1 to 10 digits; None for any other word."""
    if re.fullmatch(rb"-?[0-9]{1,10}", word):
        return int(word)
    return None


def number_within(words, at, least, most):
    """The number that is word `at`, or None where there is none in this range."""
    if at >= len(words):
        return None
    number = number_of(words[at])
    if number is None or not least <= number <= most:
        return None
    return number


def section(words, at, layout):
    """One section from word `at` on: its numbers, or None where it can't be read."""
    least_count, most_count, (least, most) = layout
    count = number_within(words, at, least_count, most_count)
    if count is None:
        return None
    numbers = []
    for place in range(at + 1, at + 1 + count):
        number = number_within(words, place, least, most)
        if number is None:
            return None
        numbers.append(number)
    return numbers


def read_sections(data, layouts):
    """What a sheet is found to be: (fault, None), or (None, the rows)."""
    if len(data) > MOST_BYTES:
        return 0, None
    words = words_of(data)
    at = 0
    rows = []
    for k, layout in enumerate(layouts, start=1):
        numbers = section(words, at, layout)
        if numbers is None:
            return k, None
        rows.append(numbers)
        at += 1 + len(numbers)
    if at < len(words):
        return len(layouts) + 1, None
    return None, rows


def number_lines(numbers):
    """Twenty to a line with one space between."""
    lines = []
    for start in range(0, len(numbers), 20):
        line = " ".join(str(number) for number in numbers[start:start + 20])
        lines.append(line)
    return lines


def call_of(rows):
    """The call of a good sheet: path count 0 stands for 2."""
    settings = list(rows[0])
    if settings[4] == 0:
        settings[4] = 2
    return Call(settings, rows[1:])


def sheet_lines(data):
    """What `sheet` prints for these bytes."""
    fault, rows = read_sections(data, SHEET_LAYOUT)
    if fault is not None:
        return [f"sheet fault {fault}"]
    answer, seed, _, pulses = quantise(call_of(rows), State())
    if answer != 0:
        return [f"answer {answer}"]
    return ["answer 0", f"seed {seed}"] + number_lines(pulses)


# ---------------------------------------------------------------------------------------------------------------
# The program `clean`
# ---------------------------------------------------------------------------------------------------------------


def section_lines(rows):
    """A sheet printed: each section on a line, its count and its numbers."""
    return [" ".join(str(number) for number in [len(row)] + row) for row in rows]


def change_lines(old_rows, new_rows):
    """Section, place, old and new of each number that changes, in sheet order; a count has no place."""
    lines = []
    for section_number, (old_row, new_row) in enumerate(zip(old_rows, new_rows), start=1):
        for place, (old, new) in enumerate(zip(old_row, new_row), start=1):
            if old != new:
                lines.append(f"{section_number} {place} {old} {new}")
    return lines


def clean_pieces(data):
    """What `clean` prints for these bytes. The bytes of a refused sheet are one piece, ended by a line feed or not."""
    fault, rows = read_sections(data, SHEET_LAYOUT)
    if fault is not None:
        return [f"sheet fault {fault}\n"]
    answer = answer_of(call_of(rows), State())
    if answer != 0:
        return [f"answer {answer}\n", data.decode()]
    new_rows = what_counts(Call(rows[0], rows[1:]), State())  # a path count 0 counts as 0
    return ended(change_lines(rows, new_rows) + section_lines(new_rows))


# ---------------------------------------------------------------------------------------------------------------
# The sheet of `hear`
# ---------------------------------------------------------------------------------------------------------------


def hear_lines(data):
    """What `hear` prints for these bytes."""
    fault, rows = read_sections(data, HEAR_LAYOUT)
    if fault is not None:
        return [f"sheet fault {fault}"]
    (seed, signal_type, offset_type), pulses = rows
    answer = excitation_answer(pulses, seed, signal_type, offset_type, len(pulses))
    if answer != 0:
        return [f"answer {answer}"]
    return ["answer 0"] + number_lines(excitation_values(pulses, seed, signal_type, offset_type))


# ---------------------------------------------------------------------------------------------------------------
# Notes from WAV files
# ---------------------------------------------------------------------------------------------------------------


def low_byte_first(piece):
    """A number in a file, of as many bytes as the piece has."""
    return sum(byte * 256**k for k, byte in enumerate(piece))


class Chunk:
    """Chunks: the one that begins at this place. Its pad byte lies behind its end.

    Where fewer than 8 bytes are left for the head, the content begins behind the end of the file: the chunk runs
    past, whatever its length is taken to be.
    """

    def __init__(self, data, place):
        self.name = data[place:place + 4]
        self.length = low_byte_first(data[place + 4:place + 8])
        self.content = place + 8
        self.end = self.content + self.length
        self.runs_past = self.end > len(data)


def walked_chunks(data):
    """The walk. A pad byte that is missing at the end of the file leaves `place` behind it: no fault."""
    chunks = []
    place = 12
    while place < len(data):
        chunk = Chunk(data, place)
        chunks.append(chunk)
        if chunk.runs_past or chunk.name == b"data":
            break
        place = chunk.end + chunk.length % 2
    return chunks


def first_named(chunks, name):
    """The first walked chunk of this name, or None."""
    return next((chunk for chunk in chunks if chunk.name == name), None)


class Fields:
    """The fields of a `fmt ` whose length is 16 or more."""

    def __init__(self, data, chunk):
        content = data[chunk.content:chunk.end]
        self.coding = low_byte_first(content[0:2])
        self.channels = low_byte_first(content[2:4])
        self.rate = low_byte_first(content[4:8])
        self.width = low_byte_first(content[14:16])


def fields_refused(fields):
    good = (
        fields.coding == 1
        and fields.channels == 1
        and fields.rate in (8000, 12000, 16000)
        and fields.width == 16
    )
    return not good


def wav_answer(data):
    """Which number comes back: the lowest that applies, as in `answer_of`. A call sheet may have as many bytes."""
    if len(data) > MOST_BYTES:
        return 1
    if data[0:4] != b"RIFF" or data[8:12] != b"WAVE":
        return 2
    chunks = walked_chunks(data)
    if any(chunk.runs_past for chunk in chunks):
        return 3
    form = first_named(chunks, b"fmt ")
    if form is None or form.length < 16:
        return 4
    if fields_refused(Fields(data, form)):
        return 5
    sound = first_named(chunks, b"data")
    if sound is None:
        return 6
    if sound.length % 2 != 0:
        return 7
    return 0


def find(data):
    """What comes back: the number, the place of the part and its length in bytes, and the samples a second."""
    answer = wav_answer(data)
    if answer != 0:
        return answer, 0, 0, 0
    chunks = walked_chunks(data)
    form = first_named(chunks, b"fmt ")
    sound = first_named(chunks, b"data")
    return 0, sound.content, sound.length, Fields(data, form).rate


def samples(part, row):
    """The second step: the answer, and the row that is then there."""
    if len(part) != 2 * len(row):
        return 8, row
    return 0, [low(low_byte_first(part[2 * i:2 * i + 2])) for i in range(len(row))]


def wav_lines(data):
    """What `wav` prints for these bytes."""
    answer, place, length, rate = find(data)
    if answer != 0:
        return [f"wav {answer}"]
    part = data[place:place + length]
    _, row = samples(part, [0] * (length // 2))  # a row that fits: never 8
    return [f"rate {rate}", f"samples {len(row)}"] + number_lines(row)


# ---------------------------------------------------------------------------------------------------------------
# The stream: not of RULES.md, but of the programs that compare
#
# Tokens between white space. `call NAME`, the ten sections of a sheet (a count and its numbers; any count), then
# `state fresh`, `state prev` or `state given` with 1408 numbers (none of them: fresh), then `go`.
# ---------------------------------------------------------------------------------------------------------------

STATE_ROWS = [("xq", 640), ("sLTP_shp_Q14", 640), ("sLPC_Q14", 96), ("sAR2_Q14", 24)]
STATE_WORDS = [
    "sLF_AR_shp_Q14",
    "sDiff_shp_Q14",
    "lagPrev",
    "sLTP_buf_idx",
    "sLTP_shp_buf_idx",
    "rand_seed",
    "prev_gain_Q16",
    "rewhite_flag",
]


def take_numbers(tokens, count):
    return [int(next(tokens)) for _ in range(count)]


def take_state(tokens):
    """The 1408 numbers of a given state."""
    state = State()
    for name, length in STATE_ROWS:
        setattr(state, name, take_numbers(tokens, length))
    for name in STATE_WORDS:
        setattr(state, name, int(next(tokens)))
    return state


def take_call(tokens, previous):
    """What stands after `call`: the name, the call, the state it starts from."""
    name = next(tokens)
    rows = []
    for _ in range(10):
        count = int(next(tokens))
        rows.append(take_numbers(tokens, count))
    state = State()
    token = next(tokens)
    if token == "state":
        kind = next(tokens)
        if kind == "prev":
            state = previous
        elif kind == "given":
            state = take_state(tokens)
        elif kind != "fresh":
            raise ValueError(f"call {name}: state {kind}")
        token = next(tokens)
    if token != "go":
        raise ValueError(f"call {name}: {token} where go should stand")
    return name, Call(rows[0], rows[1:]), state


def fnv(numbers):
    """FNV-1a of 64 bits over the numbers as little-endian words of 32 bits."""
    digest = 0xCBF29CE484222325
    for number in numbers:
        for byte in (number & 0xFFFFFFFF).to_bytes(4, "little"):
            digest = ((digest ^ byte) * 0x100000001B3) % 2**64
    return f"{digest:016x}"


def words_that_count(state, L):
    """The words of a state that count (and `lagPrev`)."""
    words = state.xq[:4 * L] + state.sLTP_shp_Q14[:4 * L] + state.sLPC_Q14[:16] + state.sAR2_Q14
    return words + [state.sLF_AR_shp_Q14, state.sDiff_shp_Q14, state.lagPrev, state.prev_gain_Q16]


def all_words(state):
    words = []
    for name, _ in STATE_ROWS:
        words += getattr(state, name)
    for name in STATE_WORDS:
        words.append(getattr(state, name))
    return words


def stream_lines(data):
    """What is printed for each call of a stream, line by line."""
    tokens = iter(data.decode().split())
    state = State()
    for token in tokens:
        if token != "call":
            raise ValueError(f"{token} where call should stand")
        name, call, given = take_call(tokens, state)
        answer, seed, state, pulses = quantise(call, given)
        yield f"call {name}"
        yield f"answer {answer}"
        yield f"seed {seed}"
        if answer == 0:
            yield from number_lines(pulses)
            yield f"count {fnv(words_that_count(state, call.L))}"
        yield f"full {fnv(all_words(state))}"


def ended(lines):
    """Each line with its line feed."""
    return (line + "\n" for line in lines)


def main():
    programs = {
        "sheet": lambda data: ended(sheet_lines(data)),
        "clean": clean_pieces,
        "hear": lambda data: ended(hear_lines(data)),
        "wav": lambda data: ended(wav_lines(data)),
        "stream": lambda data: ended(stream_lines(data)),
    }
    if len(sys.argv) != 2 or sys.argv[1] not in programs:
        sys.exit("usage: rules.py sheet | clean | hear | wav | stream < INPUT")
    for piece in programs[sys.argv[1]](sys.stdin.buffer.read()):
        sys.stdout.write(piece)
    sys.stdout.flush()


if __name__ == "__main__":
    main()
