"""What tests share does what it says: a program is killed, limited and traced."""

from support import built


def test_killed(sealed):
    """A run whose drive doesn't end."""
    assert sealed.killed("run", built.CITY, "/dev/stdin", after=0.2).status == -9


def test_limited(taxi):
    """A store that may not get as long as it is: the program says so, or is killed by the signal."""
    assert taxi.limited("seal", built.CITY, built.PARAMS, blocks=1).status in (8, -25, 153)


def test_traced(sealed):
    """The calls of the system of a run, among them the store's."""
    assert any("taxi.store" in line for line in sealed.traced("totals"))
