#!/usr/bin/env python3
"""An outside implementation of the gauges and of placing.

It shares no code with the crates: each rule stands here once more, as the plain formula.
It makes cases from a seed and prints them with its own answers, one case a line:

    gauge VERDICTS CYCLE [COST DEADLINE SPACING]...
    placed LETTER BOARDS CYCLE [COST DEADLINE SPACING BOARD]...
    stuck LETTER BOARDS CYCLE INDEX [COST DEADLINE SPACING BOARD]...

VERDICTS are three letters, y or n, of density, slope and exact. INDEX counts from 0 and names the
duty that fits no board; BOARD is the board after placing, 0 for none. A line with # is a remark.

    python3 tools/outside.py 1 > crates/compare/stdin
"""

import random
import sys

MOST_DUTIES = 64
LONGEST = 1_000_000
WHOLE = 1_000_000
# Up to this cycle exact looks at every instant; above it at the instants where the demand rises.
EVERY_INSTANT = 3000


# The rules.

def demand(rows, t):
    return sum(c * (1 + (t - d) // s) for c, d, s in rows if t >= d)


def is_fair(rows, cycle):
    return (
        len(rows) <= MOST_DUTIES
        and 1 <= cycle <= LONGEST
        and all(1 <= c <= d <= s <= LONGEST and cycle % s == 0 for c, d, s in rows)
    )


def density(rows, cycle):
    return is_fair(rows, cycle) and sum(-(-c * WHOLE // d) for c, d, s in rows) <= WHOLE


def slope(rows, cycle):
    if not is_fair(rows, cycle):
        return False
    for _, t, _ in rows:
        height = sum(c * cycle + c * (cycle // s) * (t - d) for c, d, s in rows if d <= t)
        if height > t * cycle:
            return False
    return True


def instants(rows, cycle):
    if cycle <= EVERY_INSTANT:
        return range(1, cycle + 1)
    return sorted({t for _, d, s in rows for t in range(d, cycle + 1, s)})


def exact(rows, cycle):
    return is_fair(rows, cycle) and all(demand(rows, t) <= t for t in instants(rows, cycle))


GAUGES = {"D": density, "S": slope, "E": exact}


def place(letter, boards, cycle, rows):
    """The board of each row, and the index of the row that fits none, if there is one."""
    on = [0] * len(rows)
    for i in sorted(range(len(rows)), key=lambda i: (rows[i][1], i)):
        for board in range(1, boards + 1):
            there = [row for k, row in enumerate(rows) if on[k] == board or k == i]
            if GAUGES[letter](there, cycle):
                on[i] = board
                break
        else:
            return on, i
    return on, None


# The lines.

def words(*parts):
    return " ".join(str(part) for part in parts)


def gauge_line(rows, cycle):
    verdicts = "".join("ny"[GAUGES[letter](rows, cycle)] for letter in "DSE")
    return words("gauge", verdicts, cycle, *(x for row in rows for x in row))


def placing_line(letter, boards, cycle, rows):
    on, stuck = place(letter, boards, cycle, rows)
    seated = [x for row, board in zip(rows, on) for x in (*row, board)]
    if stuck is None:
        return words("placed", letter, boards, cycle, *seated)
    return words("stuck", letter, boards, cycle, stuck, *seated)


# The cases.

def divisors(n):
    return [d for d in range(1, n + 1) if n % d == 0]


DIVISORS = {
    n: divisors(n)
    for n in (1, 2, 6, 7, 12, 16, 24, 30, 36, 60, 97, 120, 210, 360, 840, 2520,
              5040, 10080, 27720, 55440, 100000, 720720, 831600, 999983, 1000000)
}
SMALL = [n for n in DIVISORS if n <= 120]
MIDDLE = [n for n in DIVISORS if 120 < n <= 5040]
LARGE = [n for n in DIVISORS if n > 5040]


def random_rows(rng, cycle, count, load, least_spacing=1, few_deadlines=False):
    """Rows of the cycle whose costs together ask for about `load` of the time."""
    spacings = [s for s in DIVISORS[cycle] if s >= least_spacing]
    shares = [rng.expovariate(1) + 0.05 for _ in range(count)]
    shared = rng.choice(spacings)
    rows = []
    for share in shares:
        s = rng.choice(spacings)
        if few_deadlines and rng.random() < 0.7:
            s = rng.choice([x for x in spacings if x >= shared])
            d = shared
        else:
            d = rng.randint(max(1, s * rng.choice((1, 2, 3)) // 4), s)
        c = round(load * d * share / sum(shares))
        rows.append((min(max(c, 1), d), d, s))
    return rows


def border(rng, letter, rows, cycle):
    """The rows with one cost as high as the gauge lets it be, and with that cost one higher."""
    i = rng.randrange(len(rows))

    def with_cost(c):
        return rows[:i] + [(c, *rows[i][1:])] + rows[i + 1:]

    low, high = 0, rows[i][1] + 1
    while high - low > 1:
        middle = (low + high) // 2
        if GAUGES[letter](with_cost(middle), cycle):
            low = middle
        else:
            high = middle
    return [with_cost(c) for c in (low, high) if 1 <= c <= rows[i][1]]


def border_cases(rng, how_many, cycles, most, least_spacing=1):
    made = []
    while len(made) < how_many:
        cycle = rng.choice(cycles)
        least = min(least_spacing, cycle)
        rows = random_rows(rng, cycle, rng.randint(1, most), rng.uniform(0.3, 1.1), least)
        made += [(pair, cycle) for pair in border(rng, rng.choice("DSE"), rows, cycle)]
    return made


def bad_cases(rng):
    """Fair lists, and each with a row or the cycle changed, which mostly makes it unfair."""
    for _ in range(60):
        cycle = rng.choice(SMALL + MIDDLE + LARGE)
        rows = random_rows(rng, cycle, rng.randint(1, 5), 0.2, min(cycle, 12))
        yield rows, cycle
        i = rng.randrange(len(rows))
        c, d, s = rows[i]
        for bad in [(0, d, s), (d + 1, d, s), (c, s + 1, s), (c, 0, s), (c, d, 0), (0, 0, 0),
                    (c, d, LONGEST + 1), (c, d, 4294967295), (4294967295, 4294967295, 4294967295),
                    (1, 1, s + 1), (1, 1, 2 * cycle)]:
            if rng.random() < 0.4:
                yield rows[:i] + [bad] + rows[i + 1:], cycle
        for other in (0, LONGEST + 1, 2000000, 4294967295, cycle + 1, max(1, cycle - 1)):
            if rng.random() < 0.4:
                yield rows, other


def limit_cases():
    """Lists at the limits of length, cycle and cost."""
    for cycle in (0, 1, 2, 999999, 1000000, 1000001, 4294967295):
        yield [], cycle
        yield [(1, 1, 1)], cycle
        yield [(1, 1, 1), (1, 1, 1)], cycle
    for count in (62, 63, 64, 65, 66):
        for cycle in (64, 65, 100, 1000000):
            yield [(1, 64, 64)] * count, cycle
            yield [(1, cycle, cycle)] * count, cycle
        yield [(15625, 1000000, 1000000)] * count, 1000000
        yield [(15625 + (i == 40), 1000000, 1000000) for i in range(count)], 1000000
    for c in (1, 499999, 500000, 500001, 999999, 1000000):
        for d in (500000, 999999, 1000000):
            yield [(c, d, 1000000)], 1000000
            yield [(c, d, 1000000), (1, 2, 2)], 1000000
            yield [(c, d, 1000000), (1, 1, 1)], 1000000
    yield [(2, 5, 10), (3, 6, 12), (2, 8, 20)], 120
    yield [(2, 5, 10), (3, 6, 12)], 120
    for tight in ([(1, 2, 2), (1, 4, 4), (1, 5, 5)], [(1, 2, 4), (1, 4, 5), (2, 5, 8)],
                  [(3, 5, 5), (2, 8, 8)], [(1, 2, 2), (5, 10, 10)], [(1, 2, 2), (1, 2, 4)]):
        yield tight, 1000000


def gauge_cases(rng):
    yield from limit_cases()
    yield from bad_cases(rng)
    yield from border_cases(rng, 1300, SMALL, 6)
    yield from border_cases(rng, 260, MIDDLE, 10)
    yield from border_cases(rng, 180, LARGE, 8, 1000)
    for cycle in (1000000, 720720):
        for _ in range(10):
            rows = random_rows(rng, cycle, MOST_DUTIES, rng.uniform(0.5, 0.9), 50000)
            yield from ((pair, cycle) for pair in border(rng, rng.choice("DSE"), rows, cycle))


def placing_case(rng, cycles, count, boards, least_spacing=1):
    cycle = rng.choice(cycles)
    load = boards * rng.uniform(0.35, 0.95) if count else 0
    rows = random_rows(rng, cycle, count, load, min(least_spacing, cycle), rng.random() < 0.4)
    return boards, cycle, rows


def placing_cases(rng):
    for boards in (1, 2, 16):
        for cycle in (1, 120, 1000000):
            yield boards, cycle, []
    for boards in range(1, 17):
        yield boards, 1, [(1, 1, 1)] * boards
        yield boards, 1, [(1, 1, 1)] * (boards + 1)
        yield boards, 1000000, [(1, 1000000, 1000000)] * MOST_DUTIES
        yield placing_case(rng, SMALL, 1, boards)
    for _ in range(800):
        yield placing_case(rng, SMALL, rng.randint(2, 8), rng.randint(1, 4))
    for _ in range(260):
        yield placing_case(rng, MIDDLE, rng.randint(4, 16), rng.randint(1, 6))
    for _ in range(100):
        yield placing_case(rng, LARGE, rng.randint(2, 12), rng.randint(1, 6), 5000)
    for _ in range(60):
        yield placing_case(rng, [60, 120, 360], rng.randint(20, 63), rng.randint(4, 16))
    for _ in range(60):
        yield placing_case(rng, [120, 360], MOST_DUTIES, rng.randint(10, 16))
    for _ in range(16):
        yield placing_case(rng, [1000000], MOST_DUTIES, rng.randint(4, 16), 50000)


def main():
    if len(sys.argv) != 2:
        sys.exit("usage: outside.py SEED")
    seed = int(sys.argv[1])
    rng = random.Random(seed)
    print(f"# gauges and placings by tools/outside.py, seed {seed}")
    for rows, cycle in gauge_cases(rng):
        print(gauge_line(rows, cycle))
    for number, case in enumerate(placing_cases(rng)):
        print(placing_line("DSE"[number % 3], *case))


if __name__ == "__main__":
    main()
