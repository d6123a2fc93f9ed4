#!/usr/bin/env python3
"""Writes a dense sheet of random points and a certificate that proves its plan best.

usage: make_sheet.py SHEET CERTIFICATE [RUNS [NOT_ALLOWED_PERCENT [SEED]]]

The plan is found by shortest augmenting paths with prices, on whole numbers;
the prices are then shifted to be at least 0 and scaled by one more than the
number of runs, and every condition of acceptance is tested before anything is
written.
"""
import random
import struct
import sys

ABSENT = -2**31  # the word of a pair that is not allowed
TOP = 1_000_000
PRICE_LIMIT = 4_000_000_000_000_000


def random_points(rng, n, percent):
    """A table of points, None where not allowed, with at least one full plan."""
    some_plan = list(range(n))
    rng.shuffle(some_plan)
    return [
        [
            None if some_plan[i] != k and rng.random() * 100 < percent else rng.randint(-TOP, TOP)
            for k in range(n)
        ]
        for i in range(n)
    ]


def best_plan(points):
    """Seats of a best full plan, and prices at which every run is content."""
    n = len(points)
    # a pair that is not allowed costs more than any full plan can make up for
    barred = 4 * TOP * (n + 1)
    cost = [[barred if p is None else -p for p in row] for row in points]
    row_price = [0] * (n + 1)
    seat_price = [0] * (n + 1)
    holder = [0] * (n + 1)  # the run, from 1, that holds a seat, from 1; 0 for none
    for run in range(1, n + 1):
        holder[0] = run
        at = 0
        least = [None] * (n + 1)
        back = [0] * (n + 1)
        used = [False] * (n + 1)
        while holder[at] != 0:
            used[at] = True
            i = holder[at]
            row = cost[i - 1]
            shift, best = None, 0
            for k in range(1, n + 1):
                if used[k]:
                    continue
                reduced = row[k - 1] - row_price[i] - seat_price[k]
                if least[k] is None or reduced < least[k]:
                    least[k] = reduced
                    back[k] = at
                if shift is None or least[k] < shift:
                    shift, best = least[k], k
            for k in range(n + 1):
                if used[k]:
                    row_price[holder[k]] += shift
                    seat_price[k] -= shift
                elif least[k] is not None:
                    least[k] -= shift
            at = best
        while at:
            holder[at] = holder[back[at]]
            at = back[at]
    seats = [0] * n
    for k in range(1, n + 1):
        seats[holder[k] - 1] = k - 1
    prices = [-seat_price[k] for k in range(1, n + 1)]
    low = min(prices)
    return seats, [(price - low) * (n + 1) for price in prices]


def accepted(points, seats, prices):
    """Every condition of acceptance, as the checker has them."""
    n = len(points)
    assert 1 <= n <= 256 and len(seats) == n and len(prices) == n
    assert sorted(seats) == list(range(n))
    assert all(points[i][seats[i]] is not None for i in range(n))
    assert all(0 <= price <= PRICE_LIMIT for price in prices)
    for i in range(n):
        held = (n + 1) * points[i][seats[i]] - prices[seats[i]]
        for k in range(n):
            if points[i][k] is not None:
                assert (n + 1) * points[i][k] - prices[k] <= held + 1, (i, k)
    return sum(points[i][seats[i]] for i in range(n))


def main(words):
    if not 2 <= len(words) <= 5:
        sys.exit(__doc__)
    n = int(words[2]) if len(words) > 2 else 256
    percent = float(words[3]) if len(words) > 3 else 10
    rng = random.Random(int(words[4]) if len(words) > 4 else 1)
    points = random_points(rng, n, percent)
    seats, prices = best_plan(points)
    total = accepted(points, seats, prices)
    with open(words[0], "wb") as sheet:
        sheet.write(struct.pack("<HHI", n, 0, 0))
        for row in points:
            sheet.write(struct.pack(f"<{n}i", *(ABSENT if p is None else p for p in row)))
    with open(words[1], "wb") as certificate:
        certificate.write(struct.pack(f"<{n}H{n}Q", *seats, *prices))
    print(f"runs {n}, not allowed {sum(p is None for row in points for p in row)}, total {total}")


if __name__ == "__main__":
    main(sys.argv[1:])
