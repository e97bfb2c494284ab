"""What was perhaps meant by a line of a tariff that has no form, by the bytes of that line alone.

A guess is what is often written otherwise elsewhere. The earliest place in the line counts, and of one place the first
guess of the list."""

import difflib
import re
from typing import NamedTuple

from heglorwy.tariff_kinds import DAYS, KINDS

FORMS = {
    "decimals": "decimals N, from 0 to 3, and only as the first line that says something",
    "step": "step MONEY, and then ahead or behind", "positions": "positions N, from 1 to 9",
    "zones": "zones N, from 1 to 9", "holiday": "holiday YYYY-MM-DD",
    "supplement": "supplement NUMBER MONEY max N, as supplement 1 2.00 max 4",
    "initial": "initial MONEY, then covers MONEY, then when and a condition, as initial 3.80 covers 0.40 when day sun",
    "rate": "rate MONEY per METRES m, MONEY per SECONDS s, then when and a condition",
    "minimum": "minimum MONEY, then when and a condition",
}
WORDS = [

    *FORMS, *DAYS, "ahead", "behind", "covers", "when", "per", "max", "and", "or", "not", "position", "zone", "time", "day",
    "date", "after", "m", "s",
]  # fmt: skip
DAY = f"(?:{'|'.join(DAYS)})"
DASH = r"(?:-|\xe2\x80[\x93\x94]|\bto\b|\btill?\b|\buntil\b)"
BOUND = r"\b(?:up\s*to|until|till?|below|under|over|above|from|beyond)"
TWO_DOTS = "a range is written with two dots, as {}"
JOINED = "days of a list are joined by `or`, as day sat or day sun"
METRES = "distances are in metres, as {}"
SECONDS = "times are in seconds, as {}"
# Each guess: the pattern whose group is meant (or all of it, if it has none), and what to write instead.
GUESSES = [
    (r"^\xef\xbb\xbf", "a byte order mark stands before the text: save it as UTF-8 without one"),
    (rf'^\s*"?(?i:{"|".join(KINDS)}|decimals)"?\s*([;,])|^\s*(")|([;,])[\s;,]*$',
    "this is a table of a spreadsheet: words are parted by blanks, and a rate alone has a comma, between its halves"),
    (r"\xc2\xa0|\xe2\x80[\xaf\x89]", "this blank is none of a tariff's; a space is"),
    (r"(?i)\b(?:speed|faster|slower|km/h|kmh|kph|mph|m/s)\b",
    "no condition asks for a speed: the meter finds by itself whether the distance or the time is charged"),
    (r"(?:\bwhen\b|\band\b|\bor\b|\bnot\b|\()\s*(holiday\s+[0-9][0-9-]*)",
    "in a condition stands `holiday` alone; a date is a line `holiday 2026-12-25` of its own, or date 12-25..12-25"),
    (r"//|/\*|^\s*(--|'|;)", "a comment begins with #"),
    (r"^\s*holiday\s+[0-9-]+\s*(\.\.)", "each holiday has a line of its own"),
    (r"\bdate\s+([0-9]{4}-[0-9-]+(?:\s*\.\.\s*[0-9-]+)?)",
    "dates of a condition are of each year, as 12-24..01-01; days of one year are lines of their own, as holiday 2026-12-24"),
    (rf"\b[0-9.]+\s*(?:m\s*)?\.\.\s*[0-9.]+\s*[ms]\b|(?i:{BOUND}\s+[0-9.,]+\s*k?(?:m|s)\b)",
    "distances and times of a trip are asked by `after`, as after 4000.0 m and not after 8000.0 m"),
    (r"[0-9](,)[0-9]{3}\.[0-9]|[0-9](')[0-9]|[0-9]( )[0-9]{3}(?:\.[0-9])?\s*(?:m|s)\b",
    "figures are written without marks between thousands"),
    (r"\b[0-9]{1,2}[./][0-9]{1,2}[./][0-9]{2,4}\b|\b[0-9]{4}[./][0-9]{1,2}[./][0-9]{1,2}\b",
    "a date is written 2026-12-25, and in a condition 12-25..12-25"),
    (r"\b[0-9]{4}-(?:[0-9]-|[0-9]{2}-[0-9]\b)[0-9-]*", "a date is written 2026-12-25, and in a condition 12-25..12-25"),
    (r"[0-9](,)[0-9]", "decimals have a point, as 0.20"),
    (r"\b24:00", "the day ends at 00:00: a range up to midnight is written 22:00..00:00"),
    (r"(?i)[0-9]\s*([ap]\.?m\b\.?)", "the day has 24 hours, as 22:00"),
    (r"(?<![0-9:])([0-9]:[0-9]{2})\b", "hours have two digits, as 06:00"),
    (r"\btime\s+([0-9]{1,2})(?![0-9:])", "a time has minutes, as 22:00..06:00"),
    (rf"[0-9]:[0-9]{{2}}\s*({DASH})\s*[0-9]", TWO_DOTS.format("22:00..06:00")),
    (r"\b[0-9]{2}-[0-9]{2}(-)[0-9]{2}-[0-9]{2}\b", TWO_DOTS.format("12-24..01-06")),
    (rf"\b[0-9]{{2}}-[0-9]{{2}}\s*((?!-)\s{DASH})\s*[0-9]{{2}}-[0-9]{{2}}\b", TWO_DOTS.format("12-24..01-06")),
    (rf"\b{DAY}\s*({DASH})\s*{DAY}\b", TWO_DOTS.format("fri..mon")),
    (r"\.\.(\.+)|(\xe2\x80\xa6)", "a range is written with two dots"),
    (r"(?i)[0-9]\s*/\s*[0-9]+\s*(?:mi|miles?|km)?\b",
    "there are no fractions: a fifth of a mile is 321.9 m, a sixth of a kilometre 166.7 m"),
    (r"(?i)(?:[0-9]|\bper)\s*\b(mi|miles?)\b", METRES.format("1609.3 m for a mile")),
    (r"(?i)(?:[0-9]|\bper)\s*\b(yd|yards?|ft|feet|foot)\b", METRES.format("0.9 m for a yard")),
    (r"(?i)(?:[0-9]|\bper)\s*(km|kilomet(?:re|er)s?)\b", METRES.format("5000.0 m for five kilometres")),
    (r"(?i)(?:[0-9]|\bper)\s*(h|hrs?|hours?)\b", SECONDS.format("per 3600.0 s for an hour")),
    (r"(?i)(?:[0-9]|\bper)\s*(min|minutes?)\b", SECONDS.format("600.0 s for ten minutes")),
    (r"(?i)[0-9]\s*(met(?:re|er)s?)\b", "metres are written m"),
    (r"(?i)[0-9]\s*(sec|secs|seconds?)\b", "seconds are written s"),
    (r"\bper\s+([ms])\b", "behind `per` stands a figure, as per 1000.0 m or per 60.0 s"),
    (r"\xe2\x82\xac|\$|\xc2\xa3|(?i:\b(?:eur|euros?|usd|gbp|chf)\b)", "money has no sign and no name of a currency"),
    (r"%", "there are no shares of a hundred: write the amounts"),
    (r"[0-9]\s*(\+)", "amounts are not added: write the sum, as 4.00 for 3.00 + 1.00"),
    (rf"\bday\s+{DAY}\s*(,|&|\+|/|\band\b(?=\s+{DAY}))", JOINED), (rf"\bday\s+{DAY}\s+({DAY})\b", JOINED),
    (rf"(?:\bwhen\b|\band\b|\bor\b|\bnot\b|\()\s*({DAY})\b", "before each day stands the word `day`, as day sat or day sun"),
    (r"\b(?:position|zone)\s+[0-9]+\s*(\.\.|,|-|/|&)", "a condition names one number, as position 1 or position 2"),
    (r"\bafter\s+([0-9]{1,2}:[0-9]{2})", "`after` is a distance or a time of the trip; a time of day is time 22:00..06:00"),
    (r"\bafter\s+[0-9.]+\s*(?![0-9.\sms]|$)(\S*)|\bafter\s+[0-9.]+\s*()$",
    "behind `after` stand metres or seconds, as 5000.0 m"),
    (r"\bwhen\b[^,]*(,)", "conditions are joined by `and` or `or`"),
    (r";", "no `;` stands in a tariff: a comma does, or in a condition `or`"),
    (r"(?i)\b(?:mon|tues|wednes|thurs|fri|satur|sun)day\b", "days are mon, tue, wed, thu, fri, sat and sun, as day sun"),
    (r"^\s*rate\b[^,;]*()$", "a rate has two halves: MONEY per METRES m, MONEY per SECONDS s"),
    (r"(?<![0-9.])(\.)[0-9]", "a figure begins with a digit, as 0.5"),
    (r"[0-9](\.)(?![0-9.])", "a point has a digit behind it, as 1.0"),
    (r"[0-9]+\.[0-9]{2,}\s*[ms]\b", "metres and seconds have at most one decimal"),
    (r"[0-9]+\.[0-9]{3,}", "money has at most as many decimals as the tariff: two, or what its line `decimals` says"),
    (r"[=<>]|(?<![0-9]):", "no such sign stands in a tariff: a blank does"),
    (r"\bif\b", "a condition begins with `when`"),
]  # fmt: skip


class Guess(NamedTuple):
    at: int  # the place in the line, from 0
    width: int
    said: str


def with_capitals(line):
    """Words that are a tariff's but for their capitals."""
    for found in re.finditer(r"[A-Za-z]+", line):
        if found[0] != found[0].lower() and found[0].lower() in WORDS:
            yield Guess(found.start(), len(found[0]), f"words are written in small letters: `{found[0].lower()}`")


def misspelt(line):
    """Words that are none of a tariff's, with the one that is nearest."""
    for found in re.finditer(r"[A-Za-z_]+", line):
        near = nearest_word(found[0].lower(), WORDS) if found[0].lower() not in WORDS else None
        if near and len(found[0]) > 2:
            yield Guess(found.start(), len(found[0]), f"`{shown(found[0])}` is no word of a tariff; is `{near}` meant?")


def nearest_word(word, words):
    """The one of some words that is written nearly so, or None."""
    return next(iter(difflib.get_close_matches(word, words, 1, 0.6)), None)


def brackets(line):
    """A bracket that has no other one."""
    opened = []
    for at, letter in enumerate(line):
        if letter == "(":
            opened.append(at)
        elif letter == ")" and not opened:
            yield Guess(at, 1, "this bracket was never opened")
        elif letter == ")":
            opened.pop()
    for at in opened:
        yield Guess(at, 1, "this bracket is never closed")


def shown(word):
    return "".join(letter if letter.isascii() and letter.isprintable() else "?" for letter in word)


def guesses(line):
    """Each guess about a line, those first that are likelier at one place."""
    for pattern, said in GUESSES:
        for found in re.finditer(pattern, line):
            group = next((number for number in range(1, len(found.groups()) + 1) if found[number] is not None), 0)
            yield Guess(found.start(group), len(found[group]), said)
    yield from with_capitals(line)
    yield from misspelt(line)
    yield from brackets(line)


def guess(line):
    """What a line without a form perhaps means, given its bytes: the place and the words. Without a guess it is the whole
    line, and what a line of its word looks like."""
    text = line.partition(b"#")[0].decode("latin-1").rstrip(" \t\r")
    found = min(guesses(text), key=lambda one: one.at, default=None)
    if found:
        return found
    word = (re.findall(r"[a-z]+", text) or [""])[0]
    if text.lstrip(" \t\r").startswith(word) and word in FORMS:
        return Guess(0, 0, f"no `{word}` line is written so: {FORMS[word]}")
    return Guess(0, 0, f"a line begins with one of the words {', '.join(['decimals', *KINDS])}")
