"""Random tariffs, and what `near` should print of them, by fractions."""

import fractions
import math

MOST_AMOUNT = 10**6
EXPONENTS = range(7, 1, -1)


def half_up(number):
    return math.floor(number + fractions.Fraction(1, 2))


def measures_at(exponent):
    return 10**exponent, 36 * 10 ** (exponent - 2)


def near_rate(rate, exponent):
    """The two nearest amounts of a rate for the measures of an exponent."""
    a, b, c, e = rate
    way, time = measures_at(exponent)
    return half_up(fractions.Fraction(a * way, b)), half_up(fractions.Fraction(c * time, e))


def shares(rate, exponent):
    """By how much each of its amounts is off that isn't 0, as a share of the exact one."""
    near = near_rate(rate, exponent)
    for (amount, measure), other, found in zip((rate[:2], rate[2:]), measures_at(exponent), near, strict=True):
        if amount:
            exact = fractions.Fraction(amount * other, measure)
            yield abs(found - exact) / exact


def reckoned(rates, lines):
    """The exponent of rates, the share by which they are off in parts of 10^9, and their near amounts; or no exponent,
    and the fault."""
    for exponent in EXPONENTS:
        near = [near_rate(rate, exponent) for rate in rates]
        if all(max(amounts) <= MOST_AMOUNT for amounts in near):
            break
    else:
        great = [max(near_rate(rate, 2)) > MOST_AMOUNT for rate in rates]
        return None, f"AmountTooBig {lines[great.index(True)]}", None
    for rate, amounts in zip(rates, near, strict=True):
        if (rate[0] and not amounts[0]) or (rate[2] and not amounts[1]):
            return None, "NoCommonMeasure", None
    off = [math.ceil(share * 10**9) for rate in rates for share in shares(rate, exponent)]
    return exponent, max(off, default=0), near


def money(units):
    return f"{units // 100}.{units % 100:02}"


def tenths(number):
    return f"{number // 10}.{number % 10}"


def rate_line(amounts, measures, when):
    (first, second), (way, time) = amounts, measures
    return f"rate {money(first)} per {tenths(way)} m, {money(second)} per {tenths(time)} s{when}"


CONDITIONS = [
    "position 2", "time 22:00..05:00", "day sat..sun and not holiday", "after 9656.1 m", "after 60.0 s or zone 3",
    "date 12-24..01-02", "not (position 1 and zone 2)",
]
FRAME = [
    "step 0.20 ahead", "positions 2", "zones 3", "holiday 2027-01-01", "supplement 1 1.00 max 3",
    "initial 3.80 covers 0.40",
]


def a_rate(draw):
    """A rate of a city's size, or one of any size that the language has."""
    kind = draw.random()
    if kind < 0.8:
        return draw.randint(1, 40), draw.randint(200, 3000), draw.randint(1, 40), draw.randint(30, 600)
    most = 10 ** draw.randint(0, 12)
    some = lambda: draw.choice(
        [0, 1, MOST_AMOUNT, draw.randint(0, MOST_AMOUNT), draw.randint(0, 100), 10 ** draw.randint(0, 6)]
    )
    return some(), draw.randint(1, most), some(), draw.randint(1, 10 ** draw.randint(0, 12))


def a_tariff(draw):
    """Some rates, the number of the line of each, a text with them, and its parts as they are printed: lines, and for a
    rate its place and its condition."""
    rates = [a_rate(draw) for _ in range(draw.choice([1, 2, 4, 4, 6]))]
    text, printed, at = list(FRAME), ["\n".join(FRAME)], []
    for place, rate in enumerate(rates):
        for more in draw.choice([[], [], ["# a comment"], [""], ["minimum 6.00 when zone 2"]]):
            text.append(more)
            if more.startswith("minimum"):
                printed.append(more)
        when = f" when {draw.choice(CONDITIONS)}" if place < len(rates) - 1 else ""
        text.append(rate_line((rate[0], rate[2]), (rate[1], rate[3]), when))
        printed.append((place, when))
        at.append(len(text))
    return rates, at, "".join(f"{line}\n" for line in text), printed


def wanted(rates, at, printed):
    """What `near` should print of a tariff, and its status."""
    exponent, said, near = reckoned(rates, at)
    if exponent is None:
        return f"BAD TARIFF {said}\n", 2
    lines = [f"# each amount is within {said} in 1000000000", "decimals 2"]
    for part in printed:
        lines.append(part if isinstance(part, str) else rate_line(near[part[0]], measures_at(exponent), part[1]))
    return "".join(f"{line}\n" for line in lines), 0
