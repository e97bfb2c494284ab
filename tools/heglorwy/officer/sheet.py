"""The parts of a sheet, of which text and page are made."""

from typing import NamedTuple


class Cell(NamedTuple):
    text: str
    is_bad: bool = False
    rows: int = 1  # that it stands for; 0 where the cell above stands here too


class Facts(NamedTuple):
    """Names and what they are; a line to be filled in where nothing is said."""

    heading: str
    pairs: list


class Table(NamedTuple):
    heading: str
    columns: list
    rows: list  # of Cells


class Block(NamedTuple):
    """A text as it stands."""

    heading: str
    lines: list


class Paper(NamedTuple):
    title: str
    is_good: bool | None  # None where nothing was judged
    result: str
    failures: list
    parts: list
