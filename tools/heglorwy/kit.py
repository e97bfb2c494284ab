"""The Python module of the kit's command `rt`: it has the words by which the prover is called."""

import importlib
import os
import shutil
import sys


def kit_of(tool):
    """That module, for a tool of this name, which ends if there is no kit."""
    found = shutil.which("rt") or sys.exit(f"{tool}: no rt of the kit in the PATH")
    sys.path.insert(0, os.path.dirname(os.path.realpath(found)))
    return importlib.import_module("rtlib")
