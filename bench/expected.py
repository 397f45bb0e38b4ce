#!/usr/bin/env python3
"""What crates/speed must print, by the rules of docs/margins.md alone: expected.py POSITIONS SCENARIOS MINIMUMS REQUIREDS.

Every whole price up to the ceiling is tried, not only the corners. Above the ceiling this book loses no more: all strikes
lie below it by more than the variation, so a sold call has lost all that it can, and a bought one only gains.
"""
import sys

CEILING, REFERENCE, FACTOR, SIZE, RATE = 1_000_000, 256_450, 300, 50, 10_000
VARIATION = REFERENCE * FACTOR // 10_000


def holding(i):
    side, strike = ("call", 260_000 + 5_000 * i) if i % 2 == 0 else ("put", 250_000 - 1_900 * i)
    size = 1 + i % 50
    return side, strike, -size if i % 4 < 2 else size


def protected(position, price):
    side, strike, net = position
    pays = max(0, price - strike if side == "call" else strike - price)
    return net * (pays if net > 0 else min(pays, VARIATION))


def centavos(loss):
    return max(0, -(-loss // 1_000_000))


positions, scenarios, minimums, requireds = map(int, sys.argv[1:])
book = [holding(i) for i in range(positions)]
losses = [-sum(protected(p, x) for p in book) * 100 * SIZE * RATE for x in range(CEILING + 1)]
minimum = centavos(max(losses))
price = losses.index(max(losses)) if max(losses) > 0 else None
values = [i * 7_919_003 % 100_000_001 for i in range(scenarios * positions)]
rows = [values[s * positions : (s + 1) * positions] for s in range(scenarios)]
stressed = [-sum(p[2] * v for p, v in zip(book, row)) * SIZE * RATE for row in rows]
required = max([minimum] + [centavos(loss) for loss in stressed])

at = "no price" if price is None else price
sum_minimums = minimums * (minimum + (price or 0)) % 2**64
sum_requireds = requireds * required % 2**64
print(f"minimum {minimum} at {at}, asked {minimums} times more: checksum {sum_minimums}")
print(f"required {required}, asked {requireds} times more: checksum {sum_requireds}")
