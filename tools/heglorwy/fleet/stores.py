"""What the proved program says of a taxi's store, as rows of `fleet`."""

import datetime
import fcntl
import os
import pathlib

from heglorwy.fleet.marks import STORE
from heglorwy.program import Refused, Scratch, called

TOTALS = ["number", "distance", "hired", "hirings", "supplements", "fare", "held", "before_hirings", "before_fare"]
WITHOUT_LINE = "the store can't be read or written, or is in use"
SEALED = ["seal", "decimals", "tariff", "taxi", "constant", "mode", "hold", "offsets", "last_offset", "secured"]


class Unread(Refused):
    """The program tells nothing of a store: its status, and why."""


def text_of(answer):
    """What a program printed, where it ended with 0."""
    text, status = answer
    if status:
        raise Unread(status, text.decode("ascii", "replace").strip() or WITHOUT_LINE)
    return text


def words_in(text):
    """The lines of a text, as lists of words."""
    return [line.split(" ") for line in text.decode().splitlines()]


def there(name):
    """The whole path of a folder, which has to be there."""
    if not os.path.isdir(name):
        raise Unread("none", "there is no such folder")
    return pathlib.Path(name).absolute()


def asked_of(folder, command):
    """What a command prints of the store in a folder."""
    there(folder)
    try:
        return text_of(called("taxi", folder, command))
    except OSError as error:
        raise Unread("none", error.strerror) from None


def totals_in(text):
    """The totals that the text of `totals` says, by the names of the columns."""
    lines = words_in(text)
    row = {words[0].lower(): words[1] for words in lines if words[0] not in ("BEFORE", "POSITION")}
    before = next((words for words in lines if words[0] == "BEFORE"), ["", "0", "0"])
    return row | {"before_hirings": before[1], "before_fare": before[2]}


def sealed_in(text):
    """What the text of `sealed` says, with how many offsets there are and the day on which the last one begins."""
    lines = words_in(text)
    offsets = [int(words[1]) for words in lines if words[0] == "offset"]
    row = {words[1].lower(): words[2] for words in lines if words[0] == "#"}
    row |= {words[0]: words[1] for words in lines if words[0] not in ("#", "offset")}
    last = datetime.datetime.fromtimestamp(offsets[-1], datetime.timezone.utc).date() if len(offsets) > 1 else ""
    return row | {"offsets": len(offsets), "last_offset": last}


def image_of(folder):
    """The bytes of a folder's store, which nobody else has open meanwhile."""
    with open(pathlib.Path(folder, STORE), "rb") as file:
        try:
            fcntl.flock(file, fcntl.LOCK_SH | fcntl.LOCK_NB)
        except BlockingIOError:
            raise Unread(8, "the store is in use") from None
        return file.read()


def totals_of_image(image):
    """What `totals` prints of a store with these bytes, in a folder of its own."""
    with Scratch("taxi") as taxi:
        return text_of(taxi.call("totals", **{STORE: image}))
