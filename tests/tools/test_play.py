"""`tools/verify play`: in time each line comes when it is due; at once the drives come as they are, and a meter behind
the pipe shows what it shows of the files."""

import io
import subprocess

from heglorwy.officer.playing import Player
from support import built

DRIVE = b"# a comment\nU 1772434800\nK H\nI 0 1\nI 20 50\nC 1772434805\n"
DRIVE += b"D\nU 1772434865\nI 20 30\nK S\nI 0 1\nK C\nI 0 1\n"


class Clock:
    """A clock that goes on by what is waited for."""

    def __init__(self):
        self.now = 0.0

    def wait(self, seconds):
        self.now += seconds


class Timed(io.BytesIO):
    """An output that keeps when each line came."""

    def __init__(self, clock):
        super().__init__()
        self.clock, self.times = clock, []

    def flush(self):
        self.times.append(round(self.clock.now, 3))


def played(in_time):
    clock = Clock()
    out = Timed(clock)
    Player(out, in_time, lambda: clock.now, clock.wait).drive(DRIVE)
    return out.getvalue().decode().splitlines(), out.times


def test_in_time():
    """An interval comes as it ends; the supply comes back a minute later."""
    lines, times = played(True)
    when = dict(zip(lines, times))
    assert (when["K H"], when["C 1772434805"], when["D"], when["U 1772434865"]) == (0, 5.1, 68.3, 65.1)
    assert lines.count("I 20 1") == 80 and lines[-1] == "D"


def test_at_once():
    """Nothing is waited for, and no line is another one."""
    lines, times = played(False)
    assert lines == [*DRIVE.decode().splitlines()[1:], "D"] and set(times) == {0.0}


def test_through_a_pipe(sealed, tmp_path):
    """A meter behind the pipe prints what it prints of the file."""
    (tmp_path / "a.drive").write_bytes(DRIVE)
    (tmp_path / "b.drive").write_bytes(DRIVE.replace(b"17724348", b"17724448"))
    command = f'"{built.TOP}/tools/verify" play --at-once . 2>names | "{built.TAXI}" run {built.CITY} /dev/stdin'
    shown = subprocess.run(["bash", "-c", command], cwd=tmp_path, stdout=subprocess.PIPE, check=True).stdout.decode()
    assert shown.count("KIND CLOSED") == 2
    assert (tmp_path / "names").read_text() == "verify: a.drive\nverify: b.drive\n"
    assert sealed("totals").text.splitlines()[3] == "HIRINGS 2"
