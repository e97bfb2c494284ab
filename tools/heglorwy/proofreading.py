"""The findings of a tariff that is proofread: what `taxi faults` names, in words, and advice on a sound tariff."""

from heglorwy import advice
from heglorwy.faults import BROUGHT_BY, faults_of
from heglorwy.file_kinds import is_wide, no_text
from heglorwy.guesses import guess
from heglorwy.program import Refused
from heglorwy.tariff import lines_in


class Finding:
    """A finding: its line (None for the whole text), the place there and how many bytes it marks, and what it says."""

    def __init__(self, line, said, at=0, width=0):
        self.line, self.said, self.at, self.width = line, said, at, width

    def as_text(self, name, text):
        """The finding as it is printed: `FILE:LINE:COLUMN: text`, the line, and a caret."""
        if self.line is None:
            return f"{name}: {self.said}"
        line = lines_in(text)[self.line - 1]
        end = self.at + self.width
        before, marked, whole = (
            shown(part.decode(errors="replace")) for part in (line[: self.at], line[self.at : end], line.rstrip(b"\r"))
        )
        if not self.width and not self.at:
            before, marked = whole[: len(whole) - len(whole.lstrip())], whole.strip()
        blanks = "".join("\t" if letter == "\t" else " " for letter in before)
        return f"{name}:{self.line}:{len(before) + 1}: {self.said}\n  {whole}\n  {blanks}{'^' * max(1, len(marked))}"


def shown(line):
    """A line as a terminal may have it."""
    return "".join(letter if letter.isprintable() or letter == "\t" else "?" for letter in line)


def without(text, bad):
    """A text in which lines are empty."""
    lines = text.split(b"\n")
    for number in bad:
        lines[number - 1] = b""
    return b"\n".join(lines)


def brought_by(text, bad):
    """The faults that lines without a form may bring, so that they aren't told before these lines are mended."""
    words = [(lines_in(text)[number - 1].decode("latin-1").split() or [""])[0] for number in bad]
    return {fault for word in words for fault in BROUGHT_BY.get(word, sum(BROUGHT_BY.values(), []))}


def of_faults(taxi, text):
    """The findings of a text that isn't sound: lines without a form, and then the faults of the others."""
    faults = faults_of(taxi, text)
    bad = [fault.line for fault in faults if fault.name == "Syntax"]
    if faults and (said := no_text(text, "a tariff")):
        return [Finding(None, said)]
    if bad and is_wide(text):
        return [Finding(bad[0], "the text is UTF-16: save it as UTF-8, or as plain ASCII", 0, 1)]
    found = [(number, guess(lines_in(text)[number - 1])) for number in bad]
    found = [Finding(number, one.said, one.at, one.width) for number, one in found]
    untold = brought_by(text, bad)
    others = faults_of(taxi, without(text, bad)) if bad else faults
    if any(fault.name == "Syntax" for fault in others):
        return found  # without its first line the text means something else
    return found + [Finding(fault.line, f"{fault.name}: {fault.text}") for fault in others if fault.name not in untold]


def findings(taxi, text, constant):
    """All findings of a text; of a sound tariff those of `lines` and of its conditions."""
    found = of_faults(taxi, text)
    return found or [Finding(*one) for one in advice.of_tariff(taxi, text, constant)]


def need_sound(taxi, name, text):
    """Refuses a tariff that isn't sound, with its first finding."""
    if found := of_faults(taxi, text):
        raise Refused(2, f"the tariff is refused\n{found[0].as_text(name, text)}")
