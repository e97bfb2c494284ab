"""Ideas of drives for the meter that hang on amounts: a long way with a fare above 100.00, and minimum fares."""

from heglorwy.officer.ideas import Idea, explained, foil
from heglorwy.officer.ride import at, far, go, key, lose, stand
from heglorwy.officer.trip_ideas import END, held, placed
from heglorwy.tariff_parts import atoms_of

FAR = [40_000, 52_000, 65_000, 80_000]  # metres


def dear(town, draw, longer):
    """A fare above 100.00, where a driver comes to it soon enough, over a long way."""
    places = [(position, zone) for position in range(1, town.positions + 1) for zone in range(1, town.zones + 1)]
    second, kmh = town.moment(draw), town.fastest * 0.97
    trip = lambda place, metres: [at(second), *placed(*place), *key("H"), far(kmh, metres), *END]
    program = town.program
    fares = [
        fares[0] for fares in explained(
            program, trip(places[0], 5000), [foil("", trip(place, 5000)) for place in places]
        )
    ]
    place = places[max(range(len(places)), key=lambda at_: fares[1 + at_])]
    ways = [metres * draw.uniform(1, 1.04) for metres in FAR]
    fares = [
        fares[0] for fares in explained(
            program, trip(place, ways[0]), [foil("", trip(place, metres)) for metres in ways]
        )
    ][1:]
    enough = [metres for metres, fare in zip(ways, fares) if fare > 101 * 10**program.tariff.decimals]
    said = "a meter that charges a long way otherwise"
    return Idea(trip(place, (enough or ways)[0]), [[said, *["a meter whose fare wraps at 100.00"] * bool(enough)]])


def minimum(town, draw, longer):
    """A short hiring under a minimum fare, with supplements and a loss of supply. The minimum is in force: a longer way
    shows the same fare."""
    if not town.minima:
        return "a hiring under a minimum fare: the tariff has none"
    line = draw.choice(town.minima)
    place = {atom[0]: atom[1] for atom in atoms_of(line.when) if atom[0] in ("position", "zone")}
    start = [at(moment_of(town, draw, line))]
    start += [*placed(place.get("position", 1), place.get("zone", 1)), *key("H")]
    end = [*key(*(f"E {number}" for number in list(town.supplements)[:2])), lose(held(town, draw)), go(30, 5), *END]
    acts = [*start, go(30, 20), *end]
    said = "a meter that counts supplements into a minimum fare, or forgets it at a loss of supply"
    fares = [fares[0] for fares in explained(town.program, acts, [foil("", [*start, go(30, 40), *end])])]
    return Idea(acts, [[said]], [] if fares[0] == fares[1] else [foil(said, acts)])


def moment_of(town, draw, line):
    """A second at which a line may hold: by its weekdays, dates and hours, or beside any border of time."""
    days, minutes = town.days, town.edges(draw)
    for kind, *inner in atoms_of(line.when) if draw.random() < 0.7 else ():
        if kind == "day":
            days = [day for day in days if is_within(day.isoweekday(), *inner)] or days
        elif kind == "date":
            days = [day for day in days if is_within((day.month, day.day), *inner)] or days
        elif kind == "minute":
            minutes = [(inner[0] + draw.randint(5, 50)) % 1440]
    return town.moment(draw, draw.choice(days), draw.choice(minutes))


def is_within(value, first, last):
    return first <= value <= last if first <= last else value >= first or value <= last


def minimum_border(town, draw, longer):
    """A short hiring over a border of time at which another minimum fare would hold."""
    borders = sorted(
        {minute for line in town.minima for atom in atoms_of(line.when) if atom[0] == "minute" for minute in atom[1:]}
    )
    if not borders:
        return "a hiring over the border of a minimum fare: none hangs on the time"
    border, day = draw.choice(borders), draw.choice(town.days)
    start = town.moment(draw, day, border) - draw.randint(40, 60)
    acts = [at(start), *key("H"), go(30, draw.uniform(5, 10)), stand(60), *END]
    return Idea(acts, [[f"a meter that chooses the minimum fare at the end, {border // 60:02}:{border % 60:02}"]],
                [foil("a meter that chooses the minimum fare at the end", [at(start + 120), *acts[1:]])])


IDEAS = {"minimum": minimum, "minimum_border": minimum_border, "dear": dear}
