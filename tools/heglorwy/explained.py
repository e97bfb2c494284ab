"""What `explain` should say of the trips of a walk, by docs/FORMATS.md, "Explanations", line by line; so a walk can be
compared with the proved program to the byte."""

import datetime

from heglorwy.meter import millimetres
from heglorwy.tables import money
from heglorwy.tariff_parts import measure_of, of_kind
from heglorwy.tariff_kinds import LARGEST_FARE

WAYS = ["DISTANCE", "TIME", "BOTH"]
MORE = 4  # decimals of charges, beside those of the tariff


def local(meter, second):
    """The local date and time of a second."""
    return datetime.datetime.fromtimestamp(second + meter.offset_at(second), datetime.timezone.utc)


def stamp(meter, second):
    return f"{local(meter, second):%Y-%m-%d %H:%M:%S}"


def measured(meter, pulses, ticks=None):
    """A distance, and a time."""
    long = millimetres(pulses, meter.constant)
    time = "" if ticks is None else f" {ticks // 10}.{ticks % 10} s"
    return f"{long // 1000}.{long % 1000:03} m{time}"


def steps_of(trip, step, unit):
    """The display steps above what the hire fee covers, of what was charged in all."""
    above = max(0, sum(units for _, _, units in trip.groups.values()) - trip.lines["initial"].parts["covers"] * unit)
    full, rest = divmod(above, step["amount"] * unit)
    return full + (step["rounding"] == "ahead" and rest > 0)


def fare_lines(trip, tables, unit):
    """The lines from CALC on."""
    step, decimals, fee = of_kind(tables.lines, "step")[0].parts, tables.decimals, trip.lines["initial"].parts["amount"]
    steps = steps_of(trip, step, unit)
    least = trip.lines["minimum"].parts["amount"] if trip.lines["minimum"] else 0
    fare = min(max(fee + steps * step["amount"], least), LARGEST_FARE)
    amounts = {line.parts["number"]: line.parts["amount"] for line in of_kind(tables.lines, "supplement")}
    taken = [(number, trip.supplements[number]) for number in sorted(+trip.supplements)]
    more = sum(amounts[number] * count for number, count in taken)
    yield f"CALC {money(fee, decimals)} + {steps} x {money(step['amount'], decimals)}"
    yield f"FARE {money(fare, decimals)}"
    for number, count in taken:
        yield f"SUPPLEMENT {number} {count} x {money(amounts[number], decimals)}"
    yield f"SUPPLEMENTS {money(more, decimals)}"
    yield f"TOTAL {money(fare + more, decimals)}"


def explained(number, trip, tables, meter):
    """The lines of a trip, which is the hiring with this number."""
    decimals, unit = tables.decimals, meter.constant * measure_of(tables.lines)
    fee, minimum = trip.lines["initial"], trip.lines["minimum"]

    def charged(units):
        return f"{money(units * 10**MORE // unit, decimals + MORE)} {units}"

    yield f"HIRING {number} {trip.kind}"
    yield f"START {stamp(meter, trip.start)}"
    yield f"FINISH {stamp(meter, trip.finish)}"
    yield f"POSITION {trip.position}"
    yield f"DISTANCE {measured(meter, trip.pulses, trip.ticks)}"
    yield f"FEE {fee.number} {money(fee.parts['amount'], decimals)} {money(fee.parts['covers'], decimals)}"
    if minimum and minimum.parts["amount"]:
        yield f"MINIMUM {minimum.number} {money(minimum.parts['amount'], decimals)}"
    for line, way in sorted(trip.groups, key=lambda group: (group[0], WAYS.index(group[1]))):
        pulses, ticks, units = trip.groups[line, way]
        yield f"RATE {line} {way} {measured(meter, pulses, ticks)} {charged(units)}"
    if trip.stopped[1]:
        yield f"STOPPED {measured(meter, *trip.stopped)}"
    if trip.dropped:
        yield f"DROPPED {measured(meter, trip.dropped)}"
    yield f"CHARGED {charged(sum(units for _, _, units in trip.groups.values()))} / {unit}"
    yield from fare_lines(trip, tables, unit)
    yield "END"
