"""Calls of the proved programs, each in a folder of its own that goes when the work is done."""

import os
import pathlib
import signal
import subprocess
import sys
import tempfile

TOP = pathlib.Path(__file__).resolve().parents[2]
CRATES = {"taxi": "taxi_cli", "hiring_log": "hiring_log"}
BUILT = {program: TOP / "crates" / crate / "out" / crate for program, crate in CRATES.items()}
ANSWERED = set()  # the programs that were called and so are built


class Refused(Exception):
    """What was asked for can't be had: the status with which the tool ends, and why."""

    def __init__(self, status, why):
        super().__init__(why)
        self.status = status


class Differs(Exception):
    """A tool figured something else than the proved program."""

    status = 3


def command_of(program):
    """What is called for a program: its wrapper, which proves and builds it where that is needed, and once that has
    answered the built program itself. It ends sooner, which counts where a tool asks thousands of times."""
    built = BUILT[program]
    return built if program in ANSWERED and built.exists() else TOP / "bin" / program


def called(program, folder, *words):
    """What a program of bin/ prints to words in a folder, and its status. Nobody would see its warnings."""
    done = subprocess.run(
        [command_of(program), *words], cwd=folder, env={**os.environ, "TAXI_QUIET": "1"}, stdin=subprocess.DEVNULL,
        stdout=subprocess.PIPE, stderr=subprocess.DEVNULL, check=False,
    )
    if done.returncode == 125:
        raise not_built(program)
    ANSWERED.add(program)
    return done.stdout, done.returncode


class Scratch:
    """A new folder in which a program runs, as `taxi` or `hiring_log`."""

    def __init__(self, program):
        self.program = program
        self.folder = tempfile.TemporaryDirectory(prefix="taxi-")

    def __enter__(self):
        return self

    def __exit__(self, *raised):
        self.folder.cleanup()

    def call(self, *words, text=None, **texts):
        """What the program prints, and its status. Texts are put into files of their names first; one without a name is
        named behind the words."""
        if text is not None:
            texts["given"] = text
            words = (*words, "given")
        for name, content in texts.items():
            pathlib.Path(self.folder.name, name).write_bytes(content)
        return called(self.program, self.folder.name, *words)

    def well(self, *words, said="", **how):
        """The lines that the program prints, which has to end with 0. What is said if it doesn't may begin otherwise."""
        printed, status = self.call(*words, **how)
        lines = printed.decode().splitlines()
        if status:
            raise Refused(status, f"{said or f'{words[0]} ends with {status}'}: {(lines or [''])[-1]}")
        return lines


def make_ready(tool, programs):
    """Waits until programs are built, and passes on what they say of it, which `called` doesn't show. Each is called in an
    empty folder, where it finds nothing to do and says so alone."""
    for program, command in programs:
        with Scratch(program) as empty, subprocess.Popen(
            [TOP / "bin" / program, command], cwd=empty.folder.name, stdin=subprocess.DEVNULL,
            stdout=subprocess.DEVNULL, stderr=subprocess.PIPE, text=True, errors="replace",
        ) as started:
            own, of_status = f"{program}: ", f"{program}: status "
            said = (line for line in started.stderr if line.startswith(own) and not line.startswith(of_status))
            for place, line in enumerate(said):
                waits = "" if place else f"{tool}: waits for a build of bin/{program}\n"
                print(f"{waits}{line}", end="", file=sys.stderr, flush=True)
        if started.returncode == 125:
            raise not_built(program)
        ANSWERED.add(program)


def not_built(program):
    return Refused(125, f"{TOP / 'bin' / program} was not built; run it once by itself to see why")


def read(path):
    try:
        return pathlib.Path(path).read_bytes()
    except OSError as error:
        raise Refused(7, f"{path}: {error.strerror}") from None


def ending(tool, work):
    """Does the work of a tool, and gives its status. What it can't do is a line on standard error."""
    if sys.stderr is None:  # it is closed, and its lines would go to the output
        sys.stderr = open(os.devnull, "w", encoding="utf-8")
    try:
        status = work()
    except (Refused, Differs) as why:
        print(f"{tool}: {why}", file=sys.stderr)
        return why.status
    return status or 0


def print_quietly():
    """From here on a reader that has seen enough ends the tool without a word."""
    signal.signal(signal.SIGPIPE, signal.SIG_DFL)
