"""The parameters of the meter that is verified: those of a file, or those of a sealed store."""

import hashlib
import pathlib

from heglorwy.given import params_of, with_constant
from heglorwy.program import Refused, called


def params_for(asked, tariff):
    """The text of the parameters. A store has to be sealed with the tariff."""
    if not asked.store:
        return params_of(asked)
    if not pathlib.Path(asked.store).is_dir():
        raise Refused(7, f"{asked.store}: is no folder")
    printed, status = called("taxi", asked.store, "sealed")
    text = printed.decode()
    if status:
        raise Refused(status, f"{asked.store}: sealed says {text.strip() or 'nothing'}, and ends with {status}")
    if f"# TARIFF {hashlib.sha256(tariff).hexdigest()}" not in text.splitlines():
        raise Refused(6, f"{asked.store}: the store is sealed with another tariff")
    return with_constant(printed, asked.constant)
