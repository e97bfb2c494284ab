"""Ideas of drives for the meter that hang on the clock: borders within a trip, weekdays in winter and summer, the
changes of local time, and a holiday."""

import datetime
import functools

from heglorwy.officer.ideas import Idea, foil
from heglorwy.officer.ride import at, far, key, stand
from heglorwy.officer.town import LATE

END = key("S", "C")
NO_TIME = "the tariff asks for no time"


def short(town, draw, second, low=650, high=850):
    """A hiring of a minute at a second."""
    return [at(second), *key("H"), far(town.speed(draw, 60, 80), draw.uniform(low, high)), *END]


def over_border(town, draw, longer, border, day=None):
    """A trip that begins some minutes before a border, and ends behind it."""
    before, behind = (60 * longer * draw.uniform(2.5, 4) for _ in range(2))
    start = town.moment(draw, day or draw.choice(town.days), border)
    acts = [at(int(start - LATE - before)), *placed(town, draw), *key("H")]
    acts += [
        far(town.speed(draw), 9 * before), stand(before * 0.2), far(town.speed(draw), 9 * behind), stand(behind * 0.3),
        *END
    ]
    said = "a meter that goes by the time of the hiring"
    return Idea(acts, [[f"{said}, or finds {border // 60:02}:{border % 60:02} late"]], [foil(said, acts, stands=True)])


def placed(town, draw):
    position, zone = (1, 1) if draw.random() < 0.5 else town.place(draw)
    return key(f"P {position}", f"Z {zone}")


def over_midnight(town, draw, longer):
    """A trip into another kind of day."""
    days = sorted(town.holidays & set(town.days)) if "holiday" in town.asks and draw.random() < 0.5 else town.days
    return over_border(town, draw, longer, 0, draw.choice(days or town.days))


def days_of(town, weekday, is_summer):
    some = [day for day in town.days if day.isoweekday() == weekday and day not in town.holidays]
    return [day for day in some if town.is_summer(day) == is_summer]


def a_weekday(town, draw, _, weekday, is_summer, number):
    """A hiring on a weekday beside a border of time; the same hour of each other weekday is its foil. Months take
    turns."""
    days = days_of(town, weekday or draw.randint(1, 7), is_summer)
    if not days:
        return f"weekday {weekday}: no such day"
    months = sorted({day.month for day in days})
    month = months[number % len(months)]
    half = [day for day in days if day.month == month and (day.day > 15) == bool(number % 2)]
    day = draw.choice(half or [day for day in days if day.month == month])
    borders = town.borders or [draw.randrange(60, 1380)]
    border = borders[(day.isoweekday() + is_summer) % len(borders)]
    minutes = border - draw.randint(5, 50), border + draw.randint(5, 50)
    seconds = [town.second(day, minute) for minute in minutes]
    if None in seconds:
        return Idea(*unfit(town, draw))
    acts = [act for second in seconds for act in short(town, draw, second + LATE)]
    half = len(acts) // 2
    foils = []
    for by in range(1, 7):
        other = day + datetime.timedelta(days=by)
        moved = [town.second(other, minute) for minute in minutes]
        if other not in town.holidays and None not in moved:
            others = [at(moved[0] + LATE), *acts[1:half], at(moved[1] + LATE), *acts[half + 1 :]]
            foils.append(foil(f"{other:%A}", others))
    said = f"a meter that takes a {day:%A} in {'summer' if is_summer else 'winter'} for another day"
    return Idea(
        acts, [[said], [f"a meter that finds {border // 60:02}:{border % 60:02} at another hour on a {day:%A}"]], foils,
        is_any=True
    )


def beside_change(town, draw, _, begins, by, is_behind):
    """A hiring in the week before a change of local time, or behind it, at an hour at which the other offset is charged
    otherwise."""
    week = draw.randint(0, 6) if is_behind else -draw.randint(1, 7)
    day = datetime.date(1970, 1, 1) + datetime.timedelta(days=begins // 86_400 + week)
    shift = -by if is_behind else by
    border = draw.choice(town.borders or [draw.randrange(1440)])
    minute = (border + draw.randint(5, 50) * (-1 if shift > 0 else 1)) % 1440
    second = town.second(day, minute)
    if second is None or (second >= begins) != is_behind:
        return Idea(*unfit(town, draw))
    acts = short(town, draw, second + LATE)
    said = f"a meter that changes local time {'too late' if is_behind else 'too early'}: {day}"
    return Idea(acts, [[said]], [foil(said, acts, shift=shift)])


def unfit(town, draw):
    """A hiring that nothing is to be told by."""
    acts = short(town, draw, town.moment(draw))
    return acts, [[]], [foil("nothing", acts)]


def a_holiday(town, draw, _):
    """A hiring on a holiday, and one on the day behind it."""
    days = sorted(day for day in town.holidays if day >= town.days[0])
    if not days or "holiday" not in town.asks:
        return "a holiday: the tariff asks for none that is still to come"
    day, minute = draw.choice(days), draw.choice(town.edges(draw))
    next_week = next(
        later for by in range(7, 70, 7) if (later := day + datetime.timedelta(days=by)) not in town.holidays
    )
    acts = short(town, draw, town.moment(draw, day, minute), 1600, 1900)
    behind = short(town, draw, town.moment(draw, day + datetime.timedelta(days=1), minute))
    said = f"a meter that doesn't know the holiday {day}"
    return Idea(acts + behind, [[said], ["a meter that takes the day behind a holiday for one"]],
                [foil(said, [at(town.moment(draw, next_week, minute)), *acts[1:], *behind])])


def ideas(town):
    """The ideas by their names; a sentence where the tariff gives no occasion."""
    if not town.asks_for_time:
        return {"weekdays": f"days and hours: {NO_TIME}"}
    found = {
        f"border_{border // 60:02}{border % 60:02}": functools.partial(
            over_border, border=border
        ) for border in town.borders if border
    }
    found["midnight"] = over_midnight
    number, some = 0, range(1, 8) if town.asks & {"day", "holiday"} else [None] * 3 * ("date" in town.asks)
    found |= {} if some else {"weekdays": "weekdays: the tariff asks for none, and for no date"}
    for is_summer in (False, True):
        for weekday in some:
            name = f"{'summer' if is_summer else 'winter'}_{weekday or number}"
            found[name] = functools.partial(a_weekday, weekday=weekday, is_summer=is_summer, number=number)
            number += 1
    for begins, by in town.changes():
        for is_behind in (False, True):
            day = datetime.date(1970, 1, 1) + datetime.timedelta(days=begins // 86_400)
            name = f"change_{day:%Y_%m_%d}_{'behind' if is_behind else 'before'}"
            found[name] = functools.partial(beside_change, begins=begins, by=by, is_behind=is_behind)
    found["holiday"] = a_holiday
    return found
