"""What `fleet seal` does with a taxi: it seals a copy of the store first, and the store only where that went well.

So a store that can't be read, a held trip, and parameters or a tariff that are refused are told before anything is
written, and so is what changes. A store of which nothing would change isn't sealed again."""

import datetime
import pathlib

from heglorwy.fleet.marks import BEGUN, DONE, ROLL, STORE, AtWork, alone_in
from heglorwy.fleet.stores import Unread, asked_of, image_of, text_of, there, words_in
from heglorwy.program import Differs, Scratch, called, read

CHANGED = ["seal", "changes"]
NOT_SEALED = 4


class NotSealed(Exception):
    """The store was left as it was, and why."""


def settings_in(text):
    """What the text of `sealed` says but for the number of the seal: a value for each word, offsets as one list."""
    settings = {"offsets": []}
    for words in words_in(text):
        if words[0] == "offset":
            settings["offsets"].append(" ".join(words[1:]))
        elif words[0] != "#":
            settings[words[0]] = words[1]
        elif words[1] != "SEAL":
            settings[words[1].lower()] = words[2]
    return settings


def shown(name, value):
    """A value as it stands in a change: of a tariff how its digest begins, of offsets how many and the last day."""
    if name == "tariff":
        return value[:12]
    if name == "offsets":
        if not value:
            return "none"
        last = datetime.datetime.fromtimestamp(int(value[-1].split(" ")[0]), datetime.timezone.utc)
        return f"{len(value)} up to {last.date()}"
    return value


def changes_of(before, behind):
    """What a sealing changes, by what `sealed` prints before and behind it."""
    if before is None:
        return ["a first seal"]
    old, new = settings_in(before), settings_in(behind)
    if old["taxi"] != new["taxi"]:
        raise NotSealed(f"the parameters are those of taxi {new['taxi']}, and the store is of {old['taxi']}")
    return [f"{name} {shown(name, old[name])} -> {shown(name, new[name])}" for name in new if old[name] != new[name]]


def sealed_before(folder, is_given):
    """What the store was sealed with; None where a first sealing with given parameters is to make it."""
    try:
        return asked_of(folder, "sealed")
    except Unread as why:
        if why.status != NOT_SEALED or not is_given:
            raise
    traces = [name for name in (ROLL, DONE) if (folder / name).exists()]
    if traces:
        raise NotSealed(f"there is no sealed store, though there is {traces[0]}: its totals are lost")
    return None


def tried(image, texts):
    """What `sealed` prints behind a sealing of a copy of the store."""
    store = {} if image is None else {STORE: image}
    with Scratch("taxi") as taxi:
        text_of(taxi.call("seal", "tariff", "params", **store, **texts))
        return text_of(taxi.call("sealed"))


def seal_there(folder, texts, behind):
    """Seals the store itself, which then has to have what its copy had."""
    with Scratch("taxi") as place:
        names = [pathlib.Path(place.folder.name, name) for name in ("tariff", "params")]
        for name in names:
            name.write_bytes(texts[name.name])
        text_of(called("taxi", folder, "seal", *names))
    if asked_of(folder, "sealed") != behind:
        raise Differs("the store has another seal than its copy")


def sealed_row(folder, asked):
    """The row of a taxi that may be sealed."""
    before = sealed_before(folder, asked.params is not None)
    image = image_of(folder) if (folder / STORE).exists() else None
    params = before if asked.params is None else read(folder / asked.params)
    texts = {"tariff": asked.text, "params": params}
    behind = tried(image, texts)
    changes = changes_of(before, behind)
    if changes and not asked.dry_run:
        seal_there(folder, texts, behind)
    now = behind if changes and not asked.dry_run else before
    return {"status": 0, "seal": words_in(now)[0][2] if now else "", "changes": "; ".join(changes) or "nothing"}


def seal(name, asked):
    """The row of a taxi; `refused` where the store was left as it was for a reason of this tool's own."""
    folder = there(name)
    try:
        with alone_in(folder):
            if (folder / BEGUN).exists():
                raise NotSealed("a run broke off: fleet settle says what was carried out")
            return sealed_row(folder, asked)
    except (AtWork, NotSealed) as why:
        return {"status": "refused", "why": str(why)}
