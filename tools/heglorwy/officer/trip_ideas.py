"""Ideas of drives for the meter that hang on no date: keys amid the trip, Stopped, several hirings, supplements, the
supply, speeds, creeping and a jam. Each gives a sentence in its place where the tariff gives no occasion for it."""

from heglorwy.fineness import finenesses
from heglorwy.officer.ideas import Idea, foil
from heglorwy.officer.ride import COARSE, at, far, go, key, lose, stand
from heglorwy.tariff_parts import of_kind

END = key("S", "C")
TEN_MINUTES = 600
OFTEN = 6  # a supplement is entered at most so often, and at most as often as the tariff allows


def without(acts, is_left_out):
    return [act for act in acts if not is_left_out(act)]


def keys_of(acts, names):
    """The places of keys, the first hiring's own behind it."""
    hired = next(number for number, act in enumerate(acts) if act.value == "H")
    return [number for number, act in enumerate(acts) if number > hired and act.what == "key" and act.value[0] in names]


def passing_over(acts, names, how_many=None):
    """The acts without keys, or without the last ones of them."""
    places = keys_of(acts, names)
    left_out = set(places[-how_many:] if how_many else places)
    return [act for number, act in enumerate(acts) if number not in left_out]


def placed(position, zone):
    return key(f"P {position}", f"Z {zone}")


def there_and_back(town, draw, longer, name, letter, count):
    """Each position, or each zone, amid a trip, and back to the first one."""
    first = draw.randint(1, count)
    others = [number for number in range(1, count + 1) if number != first]
    draw.shuffle(others)
    position, zone = town.place(draw)
    start = placed(first, zone) if letter == "P" else placed(position, first)
    acts = [at(town.moment(draw)), *start, *key("H")]
    for number in [first, *others, first]:  # the first key sets what is set
        acts += [far(town.speed(draw), longer * draw.uniform(1100, 1500)), *key(f"{letter} {number}")]
    acts += [far(town.speed(draw), longer * draw.uniform(1100, 1500)), *END]
    said = f"a meter that passes over a {name} key amid the trip"
    back = f"a meter whose {name} can't be set back"
    foils = [foil(said, passing_over(acts, letter)), foil(back, passing_over(acts, letter, 1))]
    return Idea(acts, [[said, back, f"a meter that charges a {name} key, or by the {name} of the hiring"]], foils)


def zones(town, draw, longer):
    if town.zones == 1:
        return "zone keys amid the trip: the tariff has one zone"
    return there_and_back(town, draw, longer, "zone", "Z", town.zones)


def positions(town, draw, longer):
    if town.positions == 1:
        return "position keys amid the trip: the tariff has one position"
    return there_and_back(town, draw, longer, "position", "P", town.positions)


def stopped(town, draw, longer):
    """Ten minutes Stopped and standing, and five on the way, in which each of these is refused."""
    position, zone = town.place(draw)
    other = zone % town.zones + 1
    drive = lambda: far(town.speed(draw), draw.uniform(500, 900))
    standing = [*key("S"), stand(TEN_MINUTES), *key(f"Z {other}", f"P {position}", "H")]
    moving = [*key("S"), go(town.speed(draw), longer * draw.uniform(150, 180))]
    acts = [
        at(town.moment(draw)), *placed(position, zone), *key("H"), drive(), *standing, drive(), *moving, *key("H"),
        drive(), *END
    ]
    hired = lambda part: without(
        part, lambda act: act.value in ("S", "H") or act.what == "key" and act.value[0] in "PZ"
    )
    begin = acts[:4] + [acts[4]]
    foils = [
        foil("a meter that charges time while it is stopped", begin + hired(standing) + acts[5 + len(standing) :]),
        foil("a meter that charges distance while it is stopped",
             acts[: 6 + len(standing)] + hired(moving) + acts[7 + len(standing) + len(moving) :]),
    ]
    said = [one.said for one in foils]
    return Idea(acts, [[*said, "a meter that takes keys of place while it is stopped"]], foils)


def again(town, draw, longer):
    """Hire in Stopped, three times, in the last position and zone."""
    acts = [at(town.moment(draw)), *placed(town.positions, town.zones), *key("H")]
    number = min(town.supplements, default=None)
    for turn in range(3):
        acts += [far(town.speed(draw), longer * draw.uniform(700, 900))]
        acts += key(f"E {number}") if number and turn == 0 else []
        acts += [*key("S"), stand(draw.uniform(5, 15)), *key("H")]
    acts += [far(town.speed(draw), 800), *END]
    return Idea(acts, [["a meter that charges a hire fee or begins anew at Hire in Stopped",
                        "a meter that forgets distance, place or supplements at Hire in Stopped, or refuses it"]])


def in_a_row(town, draw, longer):
    """Hirings behind one power-up: the first beyond each bound, with supplements; then short ones, the last where the
    one before went to."""
    metres = min(15_000, max([2000, *(bound / 10 + 600 for bound in town.bounds)])) * longer
    supplements = key(*(f"E {number}" for number in town.supplements))
    first = [far(town.fastest * 0.97, metres), *supplements]
    short = lambda: far(town.speed(draw, 50), draw.uniform(1300, 1700))
    roam = lambda: [far(town.speed(draw), draw.uniform(500, 700))]
    acts = [
        at(town.moment(draw)), *key("H"), *first, *END, *roam(), *key("H"), short(), *supplements[:1], *END, *roam()
    ]
    acts += [*key("H"), short(), *placed(town.positions, town.zones), short(), *END, *roam(), *key("H"), short(), *END]
    return Idea(acts, [
        ["a meter that counts what is driven for hire"],
        ["a meter that carries distance, charge, cover or supplements into the next hiring"],
        ["a meter that charges the third hiring otherwise than the first"],
        ["a meter that doesn't stay in position and zone behind a hiring"],
    ])


def supplements(town, draw, longer):
    """Each supplement while Hired, in Stopped, and before a loss of supply."""
    if not town.supplements:
        return "supplements: the tariff has none"
    acts = [at(town.moment(draw)), *placed(*town.place(draw)), *key("H"), far(town.speed(draw), 500)]
    often = {number: min(most, OFTEN) for number, most in town.supplements.items()}
    acts += key(*(f"E {number}" for number, count in often.items() for _ in range((count + 1) // 2)))
    acts += [far(town.speed(draw), 400), lose(held(town, draw)), *key("S")]
    acts += key(*(f"E {number}" for number, count in often.items() for _ in range(count // 2))) + key("H", "S", "C")
    return Idea(acts, [["a meter that counts a supplement twice or not, or takes it in Hired or in Stopped alone",
                        "a meter that loses supplements with the supply"]])


def held(town, draw, low=0.6):
    """Seconds without supply behind which a trip goes on: more than half of the hold time."""
    return max(0, int(town.meter.hold * draw.uniform(low, 0.95)))


def losses(town, draw, longer, position, zone):
    """Two losses of supply in another place: the first before the cover is used."""
    acts = [at(town.moment(draw)), *key("H")]
    acts += key(*[f"P {position}"] * (position > 1), *[f"Z {zone}"] * (zone > 1))
    acts += [go(town.speed(draw), 1), lose(held(town, draw)), far(town.speed(draw), longer * draw.uniform(1400, 1700))]
    acts += [lose(held(town, draw)), far(town.speed(draw), longer * draw.uniform(1400, 1700)), *END]
    lost = [number for number, act in enumerate(acts) if act.what == "lose"]
    reset = [*acts[: lost[0] + 1], *placed(1, 1), *acts[lost[0] + 1 :]]
    waited = [stand(act.value) if act.what == "lose" else act for act in acts]
    foils = [foil("a meter that charges the time without supply", waited)] if town.meter.hold > 20 else []
    if (position, zone) != (1, 1):
        foils.append(foil("a meter that sets position and zone 1 at a loss of supply", reset))
    return Idea(acts, [[*(one.said for one in foils), "a meter that forgets cover or charge at a loss of supply",
                        "a meter whose trip ends at the second loss of supply, or too early"]], foils)


def losses_in_zone(town, draw, longer):
    if town.zones == 1:
        return "losses of supply in another zone: the tariff has one zone"
    return losses(town, draw, longer, 1, town.zones)


def losses_in_position(town, draw, longer):
    return losses(town, draw, longer, town.positions, 1)


def loss_while_stopped(town, draw, longer):
    acts = [
        at(town.moment(draw)), *placed(*town.place(draw)), *key("H"), far(town.speed(draw), 600), *key("S"),
        lose(held(town, draw))
    ]
    acts += [stand(longer * draw.uniform(90, 120)), far(town.speed(draw), 900), *key("C")]
    return Idea(acts, [["a meter that goes on charging when the supply comes back while it was stopped"]],
                [foil("a meter that goes on charging", [*acts[:-5], *acts[-4:-1], *END])])


def far_loss(town, draw, longer):
    """A loss of supply beyond the bounds of distance and duration."""
    if not town.bounds and not town.durations:
        return "a loss of supply beyond a bound: the tariff has no `after`"
    metres = max([1000, *(bound / 10 + 500 for bound in town.bounds if bound < 200_000)])
    wait = max([0, *(bound / 10 + 10 for bound in town.durations if bound < 18_000)])
    begin = [
        at(town.moment(draw)), *key("H"), far(town.fastest * 0.97, metres),
        stand(max(0.1, wait - metres * 3.6 / town.fastest))
    ]
    rest = [far(town.speed(draw), longer * draw.uniform(1500, 1800)), stand(60), *END]
    return Idea([*begin, lose(held(town, draw)), *rest],
                [["a meter that forgets distance and duration at a loss of supply"]])


def speeds(town, draw, longer):
    """Even speeds, each as far as the others."""
    kept = [
        speed * draw.uniform(0.92, 1.08) for speed in (15, 30, 40, 50, 60, 70, 85) if speed < town.fastest
    ] + [town.fastest * 0.97]
    draw.shuffle(kept)
    each = longer * draw.uniform(700, 800)
    acts = [at(town.moment(draw)), *placed(*town.place(draw)), *key("H"), *(far(speed, each) for speed in kept), *END]
    said = "a meter that counts some speeds wrong: {} km/h"
    return Idea(acts, [[said.format(", ".join(f"{speed:.0f}" for speed in sorted(kept)))]])


def creeping(town, draw, longer):
    """Below the cross-over speed of a rate, where time is charged, and at a walking pace."""
    found = [
        one.speed / 1000 for one in finenesses(
            of_kind(town.program.tariff.lines, "rate"), town.meter.constant
        ) if one.speed
    ]
    speeds_ = [speed for speed in found if 6 < speed < town.fastest]
    if not speeds_ or town.meter.mode == "double":
        return "creeping below a cross-over speed: no rate has one, or mode D charges both"
    kmh, seconds = min(speeds_) * draw.uniform(0.76, 0.84), draw.uniform(220, 260) * longer
    if (pulses := int(kmh * town.meter.constant / 36_000)) > COARSE:
        kmh = 36_000 * pulses / town.meter.constant  # whole pulses, and none too fast
    walk = go(draw.uniform(3.5, 5.5), draw.uniform(60, 80))
    begin = [at(town.moment(draw)), *placed(*town.place(draw)), *key("H"), walk]
    acts = [*begin, go(kmh, seconds), *END]
    said = "a meter that charges creeping by distance"
    return Idea(acts, [[said, "a meter that doesn't count what is driven at a walking pace"]],
                [foil(said, [*begin, far(town.fastest * 0.97, kmh * seconds / 3.6), *END])])


def jam(town, draw, longer):
    """Creeping and standing by turns: in fractions of a second, and in seconds."""
    acts = [at(town.moment(draw)), *key("H")]
    for _ in range(int(90 * longer)):
        acts += [go(draw.uniform(30, 40), draw.randint(4, 7) / 10), stand(draw.randint(10, 16) / 10)]
    for _ in range(int(9 * longer)):
        acts += [
            go(draw.uniform(7, 11), draw.uniform(7, 10)), stand(draw.uniform(3, 5)),
            go(draw.uniform(28, 33), draw.uniform(2, 2.9))
        ]
    acts += END
    metres = sum(act.value * act.ticks / 36 for act in acts if act.what == "go")
    seconds = sum(act.ticks for act in acts if act.what == "go") / 10
    even = [*acts[:2], go(3.6 * metres / seconds, seconds), *END]
    foils = [foil("a meter that charges by a mean speed", even)] if town.meter.mode == "single" else []
    return Idea(acts, [["a meter that charges by a mean speed, or is late to change between distance and time"]], foils)


IDEAS = {
    "zone_keys": zones, "position_keys": positions, "stopped": stopped, "hire_again": again, "in_a_row": in_a_row,
    "supplements_amid": supplements, "two_losses_in_zone": losses_in_zone, "two_losses": losses_in_position,
    "loss_while_stopped": loss_while_stopped, "loss_beyond": far_loss, "speeds": speeds, "creeping": creeping,
    "jam": jam,
}
