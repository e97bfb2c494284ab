"""The words that `fleet` takes, for each of its commands."""

import argparse
import datetime

from heglorwy.program import TOP

STATUSES = """Statuses: 0; 1 where a row has a status other than 0, or a roll is out of order; 2 for wrong words; 7 for
a file that can't be read; 125 where the program was not built."""
WHAT = {
    "totals": "what `taxi totals` prints", "sealed": "what `taxi sealed` prints",
    "check": "receipts beside totals, the seal's tariff and date, how long its offsets last, and runs that broke off",
    "receipts": "the receipts of all rolls, a row each",
    "run": "carries out one drive a folder, on all processors, and none twice",
    "settle": "says what a run that broke off carried out, and makes `left.drive` of what is left",
    "seal": "seals each store with another tariff or other parameters",
}


DAY = {"type": datetime.date.fromisoformat, "metavar": "DATE"}
OPTIONS = {
    "check": {
        "--tariff": {"metavar": "FILE", "help": "the tariff that will be used; another one is a finding"},
        "--secured": {**DAY, "help": "secured before this day is a finding"},
        "--today": {**DAY, "default": datetime.date.today(), "help": "the day by which dates are judged"},
    },
    "run": {
        "--tariff": {"metavar": "FILE", "required": True,
                     "help": "the tariff, by a whole name or as it is called in each folder"},
        "--drive": {"default": "drive", "metavar": "NAME", "help": "what the drive is called in each folder (drive)"},
        "--machines": {"metavar": "FILE", "help": "an object of JSON that has for folders the machine on which each lies; ssh "
                       "goes there. A folder that it doesn't name lies here"},
        "--ssh": {"metavar": "FILE", "help": "ssh's settings for these machines, in place of your own"},
        "--there": {"default": str(TOP / "tools/fleet"), "metavar": "PATH",
                    "help": "where this tool lies on those machines (the same place as here)"},
    },
    "settle": {
        "--tariff": {"metavar": "FILE", "help": "the tariff of the run, where it has gone from its place"},
        "--without-rest": {"action": "store_true", "help": "settles also where it can't be told what is left of the drive; "
                           "the drive is refused from then on"},
    },
    "seal": {
        "--tariff": {"metavar": "FILE", "required": True, "help": "the tariff with which each store is sealed"},
        "--params": {"metavar": "NAME", "help": "what the parameters are called in each folder; without it they stay as sealed"},
        "--dry-run": {"action": "store_true", "help": "says what would change, and seals nothing"},
    },
}


def arguments(what):
    """The words of the call; the text says what the tool is."""
    form = {"formatter_class": argparse.RawDescriptionHelpFormatter, "epilog": STATUSES}
    parser = argparse.ArgumentParser(prog="fleet", description=what, **form)
    commands = parser.add_subparsers(dest="command", required=True, metavar="COMMAND")
    for name, does in WHAT.items():
        command = commands.add_parser(name, help=does, description=f"{name}: {does}.", **form)
        for option, how in OPTIONS.get(name, {}).items():
            command.add_argument(option, **how)
        command.add_argument("folders", nargs="+", metavar="FOLDER")
    return parser.parse_args()
