"""What the tests in Python share, for pytest: the built programs, a folder with a sealed store, tariffs and drives, and
a program that is killed, limited or traced."""

import os
import pathlib
import random
import shutil
import signal
import subprocess
import sys

import pytest

TOP = pathlib.Path(__file__).resolve().parents[1]
sys.path[:0] = [str(TOP / folder) for folder in ("tools", "tests", "tests/tools/officer")]
from heglorwy.program import Scratch  # noqa: E402
from support import built, drives  # noqa: E402
from support.left_out import leave_out  # noqa: E402

SEED = 20260302


def pytest_addoption(parser):
    parser.addoption("--long", action="store_true", help="those that take long, too")


def pytest_configure(config):
    config.addinivalue_line("markers", "long: takes minutes")


def pytest_collection_modifyitems(config, items):
    if not config.getoption("--long"):
        items[:] = [item for item in items if "long" not in item.keywords]


def pytest_runtest_logreport(report):
    """What a test leaves out since a tool is missing is told at the end of the gate, too."""
    if report.skipped:
        leave_out(f"python: {report.nodeid}: {report.longrepr[-1] if report.longrepr else 'left out'}")


class Ended:
    """What a program printed, what it said, and its status."""

    def __init__(self, done):
        self.out, self.said, self.status = done.stdout, done.stderr, done.returncode

    @property
    def text(self):
        return self.out.decode()


class Called:
    """A program, called in a folder: to its end, or killed, limited or traced."""

    def __init__(self, program, folder):
        self.program, self.folder = program, folder

    def __call__(self, *words, stdin=b"", before=()):
        call = [*before, self.program, *map(str, words)]
        return Ended(subprocess.run(call, cwd=self.folder, input=stdin, capture_output=True, check=False))

    def killed(self, *words, after):
        """It is killed so many seconds after it began; what it printed until then."""
        pipes = {name: subprocess.PIPE for name in ("stdin", "stdout", "stderr")}
        with subprocess.Popen([self.program, *map(str, words)], cwd=self.folder, **pipes) as run:
            try:
                run.wait(after)
            except subprocess.TimeoutExpired:
                run.send_signal(signal.SIGKILL)
            out, said = run.communicate()
            return Ended(subprocess.CompletedProcess(words, run.returncode, out, said))

    def limited(self, *words, blocks):
        """No file of it may get longer than so many blocks of 1024 bytes."""
        return self(*words, before=["bash", "-c", f'ulimit -f {blocks} && exec "$@"', "limited"])

    def traced(self, *words):
        """Its system calls, line by line."""
        if not shutil.which("strace"):
            pytest.skip("no strace")
        trace = pathlib.Path(self.folder, "trace")
        self(*words, before=["strace", "-qq", "-o", str(trace)])
        return trace.read_text(errors="replace").splitlines()


@pytest.fixture(scope="session", name="programs")
def _programs():
    """The built programs, by their names; the session ends where they aren't there."""
    found = {"taxi": built.TAXI, "hiring_log": built.HIRING_LOG}
    if not os.access(built.TAXI, os.X_OK):
        pytest.exit(f"{built.TAXI} is not there; build it first, by bin/taxi", 1)
    return found


@pytest.fixture(name="taxi")
def _taxi(programs, tmp_path):
    """The taximeter's program, called in a new folder."""
    return Called(programs["taxi"], tmp_path)


@pytest.fixture(name="sealed")
def _sealed(taxi):
    """The same in a folder with a store that is sealed with the city's tariff."""
    assert taxi("seal", built.CITY, built.PARAMS).status == 0
    return taxi


@pytest.fixture(scope="module", name="scratch")
def _scratch(programs):
    """The program as the tools call it, in a folder of its own."""
    assert programs
    with Scratch("taxi") as scratch:
        yield scratch


@pytest.fixture(scope="session", name="tariffs")
def _tariffs():
    """The texts of the tariffs of the examples and of those with every kind of condition, by their names."""
    paths = sorted((TOP / "examples").glob("*.tariff"))
    found = {path.stem: path.read_text() for path in paths if path.stem != "faulty"}
    return found | {f"drawn_{number}": text for number, text in enumerate(drives.TARIFFS)}


@pytest.fixture(name="draw")
def _draw(request):
    """Draws that are the same each time."""
    print(f"seed {SEED}")
    return random.Random(f"{SEED} {request.node.name}")
