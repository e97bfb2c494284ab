"""Wrong tariffs, each with one change, made from the printed form as letters: nothing here knows how tools/heglorwy/officer
turns a tariff."""

import datetime
import re

ATOM = re.compile(
    r"(?P<not>not )?(?P<atom>(?:position|zone) \d|time \S+\.\.[0-9:]+|day [a-z]{3}(?:\.\.[a-z]{3})?"
    r"|date [\d-]+\.\.[\d-]+|holiday|after [\d.]+ [ms])"
)
DAYS = ["mon", "tue", "wed", "thu", "fri", "sat", "sun"]
ALWAYS, NEVER = "(position 1 or not position 1)", "(position 1 and not position 1)"
# Of each kind of atom: what a border looks like in it, and by how much it is moved.
BORDERS = {
    "time": (r"\d\d:\d\d", (-1, 1, -25, 25)), "date": (r"\d\d-\d\d", (-1, 1, 4)), "day": (r"[a-z]{3}", (-1, 1)),
    "after": (r"\d+\.\d", (-1, 1, -2500, 2500)),
}
SMALL, LARGE = "a unit or a step", "more"


def moved(kind, text, by):
    if kind == "time":
        hours, minutes = divmod((60 * int(text[:2]) + int(text[3:]) + by) % 1440, 60)
        return f"{hours:02}:{minutes:02}"
    if kind == "date":
        day = datetime.date(2028, int(text[:2]), int(text[3:])) + datetime.timedelta(days=by)
        return f"{day:%m-%d}"
    if kind == "day":
        return DAYS[(DAYS.index(text) + by) % 7]
    number = round(10 * float(text)) + by
    return f"{number // 10}.{number % 10}" if number > 0 else None


def of_atoms(head, condition):
    """The line with each atom changed: dropped beside `and`, dropped beside `or`, turned round, of another number."""
    for found in ATOM.finditer(condition):
        left, right = condition[: found.start()], condition[found.end() :]
        around = lambda text: f"{head} when {left}{text}{right}"
        yield LARGE, f"{found[0]} dropped before and", around(ALWAYS)
        yield LARGE, f"{found[0]} dropped before or", around(NEVER)
        yield LARGE, f"{found[0]} turned round", around(found["atom"] if found["not"] else f"not {found['atom']}")
        kind = found["atom"].split()[0]
        if kind in ("position", "zone"):
            for number in range(1, 4):
                if str(number) != found["atom"][-1]:
                    yield LARGE, f"{found[0]} is {number}", around(f"{found['not'] or ''}{found['atom'][:-1]}{number}")
        elif kind in BORDERS:
            yield from of_borders(kind, found, around)


def of_borders(kind, found, around):
    pattern, ways = BORDERS[kind]
    for border in re.finditer(pattern, found["atom"]):
        if border.start() < len(kind):
            continue
        for by in ways:
            new = moved(kind, border[0], by)
            if new:
                text = found["atom"][: border.start()] + new + found["atom"][border.end() :]
                if kind == "day" and ".." not in text:
                    continue
                size = SMALL if kind in ("time", "after") and abs(by) == 1 else LARGE
                yield size, f"{found[0]} is {text}", around(f"{found['not'] or ''}{text}")


def of_conditions(head, condition, with_days):
    """The line with its condition changed as a whole, and with a position, a zone or a weekday more or less."""
    for found in re.finditer(r" (and|or) ", condition):
        other = {"and": " or ", "or": " and "}[found[1]]
        changed = condition[: found.start()] + other + condition[found.end() :]
        yield LARGE, f"{found[1]} at {found.start()} the other way", f"{head} when {changed}"
    if "(" in condition:
        yield LARGE, "without parentheses", f"{head} when {re.sub('[()]', '', condition)}"
    for place in ("position 1", "position 2", "zone 1", "zone 2"):
        yield LARGE, f"not in {place}", f"{head} when ({condition}) and not {place}"
        yield LARGE, f"also in {place}", f"{head} when {condition} or {place}"
    for day in DAYS if with_days else ():
        yield LARGE, f"not on {day}", f"{head} when ({condition}) and not day {day}"
        yield LARGE, f"also on {day}", f"{head} when {condition} or day {day}"


def of_numbers(head, units, money, step):
    """The line's head with one of its numbers changed."""
    words = head.split()
    put = lambda at, new: " ".join(words[:at] + [new] + words[at + 1 :])
    if words[0] == "rate":
        for at, name in ((3, "distance"), (7, "time")):
            value = round(10 * float(words[at]))
            large = (-(-value * 1021 // 1000), value * 1000 // 1021)
            for new, size in (*((number, LARGE) for number in large), (value + 1, SMALL), (value - 1, SMALL)):
                if new > 0:
                    yield size, f"{name} {new / 10}", put(at, f"{new // 10}.{new % 10}")
    for at in {"initial": (1, 3), "minimum": (1,), "supplement": (2,)}.get(words[0], ()):
        for by in (1, -1, 2, -2, 5):
            value = units(words[at]) + by * step
            if value >= 0:
                yield SMALL if abs(by) == 1 else LARGE, f"amount {at} {by:+} steps", put(at, money(value))
    if words[0] == "supplement":
        for new in (int(words[4]) + 1, int(words[4]) - 1):
            yield LARGE, f"max {new}", put(4, str(new))
        yield LARGE, "another number", put(1, "14")
    if words[0] == "step":
        yield SMALL, "rounding", put(2, {"ahead": "behind", "behind": "ahead"}[words[2]])
        for new in (2 * step, step // 2):
            yield SMALL, f"step {new}", put(1, money(new))
    if words[0] == "holiday":
        for by in (1, -1, 365):
            day = datetime.date.fromisoformat(words[1]) + datetime.timedelta(days=by)
            yield LARGE, f"{by:+} d", put(1, str(day))
    if words[0] in ("positions", "zones"):
        for by in (1, -1):
            yield SMALL, f"{by:+}", put(1, str(int(words[1]) + by))


def mutants(form, with_days=False):
    """Each wrong text once: its size, its name, and the text. Some are no sound tariffs, and some the same tariff."""
    lines = form.splitlines()
    decimals = int(lines[0].split()[1])
    units = lambda money: round(float(money) * 10**decimals)
    money = lambda amount: f"{amount / 10**decimals:.{decimals}f}"
    step = units(next(line.split()[1] for line in lines if line.startswith("step")))
    text = lambda new: "\n".join(new) + "\n"
    seen = {form}
    for at, line in enumerate(lines):
        for size, name, new in of_line(lines, at, units, money, step, with_days):
            made = text(new)
            if made not in seen:
                seen.add(made)
                yield size, f"{at + 1} {line.split()[0]}: {name}", made


def in_places(head, units, money, step, with_days):
    """A line without a condition, made dearer in each place."""
    words = head.split()
    ats = {"rate": (1, 5), "initial": (1,), "minimum": (1,)}.get(words[0], ())
    for at in ats:
        words[at] = money(units(words[at]) + 3 * step)
    for place in ("position 1", "position 2", "zone 1", "zone 2", *(f"day {day}" for day in DAYS if with_days)):
        if ats:
            yield place, " ".join(words)


def of_line(lines, at, units, money, step, with_days):
    """All changes of a line: what the text is then, as lines."""
    head, _, condition = lines[at].partition(" when ")
    put = lambda new: lines[:at] + [new] + lines[at + 1 :]
    when = f" when {condition}" if condition else ""
    for size, name, new in of_numbers(head, units, money, step):
        yield size, name, put(new + when)
    if head.split()[0] in ("holiday", "supplement") or condition:
        yield LARGE, "lost", lines[:at] + lines[at + 1 :]
    if not condition:
        for place, new in in_places(head, units, money, step, with_days):
            yield LARGE, f"dearer in {place}", lines[:at] + [f"{new} when {place}"] + lines[at:]
        return
    for size, name, new in (*of_atoms(head, condition), *of_conditions(head, condition, with_days)):
        yield size, name, put(new)
    for behind in range(at + 1, len(lines)):
        if lines[behind].split()[0] == head.split()[0] and " when " in lines[behind]:
            between, rest = lines[at + 1 : behind + 1], lines[behind + 1 :]
            yield LARGE, f"moved behind line {behind + 1}", [*lines[:at], *between, lines[at], *rest]


def wrong_params(params):
    """Wrong parameters: the mode, the constant, the hold time, one offset for ever."""
    change = lambda pattern, new: re.sub(pattern, new, params, count=1, flags=re.MULTILINE)
    number = lambda word: int(re.search(rf"^{word} (\d+)", params, re.MULTILINE)[1])
    is_single = "mode single" in params
    yield "the other mode", change(r"^mode \w+", "mode double" if is_single else "mode single")
    for share in (1020, 980, 1004):
        if 500 <= (new := number("constant") * share // 1000) <= 200_000:
            yield f"constant {new}", change(r"^constant \d+", f"constant {new}")
    for by in (1, -1, -60):
        if 0 <= number("hold") + by <= 600:
            yield f"hold {number('hold') + by}", change(r"^hold \d+", f"hold {number('hold') + by}")
    yield "the first offset for ever", re.sub(r"^offset (?!946684800 ).*\n", "", params, flags=re.MULTILINE)
