"""What a medium may hold after a cut of the power, from the system calls that strace saw of a program.

A file has the bytes of its last sync that was Ok, and the writes since then; a folder has the names of its last sync, and
those that came or went since. A cut leaves any of these writes and names, in any choice, and a write that it leaves may be
torn, or have any bytes at all in its range. Where a write gives a range the bytes that it had, each byte that was at rest
there stays.

A sync that fails takes all of these for written, as ext4 and XFS do: who reads next finds them, and no later sync writes
them. So whether the medium has them is open for good, byte by byte, until they are written again: a new write puts its
range in flight once more, and a name that comes or goes in a folder puts the folder's others in flight with it."""

import collections
import copy
import itertools
import math
import os
import re
import subprocess

CALL = re.compile(r"^(\w+)\((.*)\)\s+= (-?\d+|0x[0-9a-f]+)\b")
FIELD = re.compile(r'"(?:\\x[0-9a-f]{2})*"(?:\.\.\.)?|\{[^}]*\}|\[[^\]]*\]|[^,\s"][^,"]*')
# Calls on an open file that change nothing of it or of its names.
HARMLESS = {
    "pread64", "fstat", "newfstatat", "statx", "flock", "fadvise64", "ioctl", "poll", "fchmod", "chmod", "fchmodat",
    "readlink", "readlinkat", "stat", "lstat", "access", "faccessat", "faccessat2", "statfs", "getdents64", "execve",
}
SYNCS = {"fsync", "fdatasync"}
MOVES = {"link", "linkat", "rename", "renameat", "renameat2", "unlink", "unlinkat"}
# Calls of which nothing is said here.
UNTOLD = {"mkdir", "mkdirat", "rmdir", "symlink", "symlinkat", "mknod", "mknodat", "truncate", "fallocate", "writev", "pwritev"}
# The pairs of slots of the store, by the places of their gates, and the byte that opens a gate.
GATES = {0: "totals", 512: "totals", 1024: "seal", 1536: "seal"}
OPEN = b"\xa5"

# A moment at which the power may be cut: the medium, and what was printed or had begun to print.
Moment = collections.namedtuple("Moment", "medium printed")


class File:
    """The bytes that a file has now, and those that the medium has for sure, or None before the first sync; the writes
    since the last sync, and those of syncs that failed, which the medium has or hasn't."""

    def __init__(self, content=None):
        self.now, self.kept, self.writes, self.doubtful = bytearray(content or b""), content, [], []

    def write(self, place, piece):
        if piece is not None and self.now[place:place + len(piece)] == piece:
            # The bytes that the range had: only what a failed sync took for written is in flight again.
            ranges = {(at, at + len(part)) for at, part in parts_of(self.doubtful, place, place + len(piece))}
            self.writes += [(begin, piece[begin - place:end - place]) for begin, end in sorted(ranges)]
        else:
            self.writes.append((place, piece))
        self.now = bytearray(written(self.now, place, piece))

    def sync(self, is_good):
        if is_good:
            self.kept = self.kept or b""
            for place, piece in self.writes:
                self.kept = written(self.kept, place, piece)
            self.doubtful = self.given_up()
        elif any(piece is None for _, piece in self.writes):
            raise ValueError("nothing says what a failed sync leaves of a length")
        else:
            self.doubtful = [write for write in self.doubtful if write not in self.writes] + self.writes
        self.writes = []

    def given_up(self):
        """What failed syncs took for written, but for what was written again: no later sync writes it."""
        left = self.doubtful
        for place, piece in self.writes:
            end = math.inf if piece is None else place + len(piece)
            left = parts_of(left, 0, place) + parts_of(left, end, math.inf)
        return left


def parts_of(writes, begin, end):
    """What of some writes lies between two places."""
    found = []
    for place, piece in writes:
        first, last = max(place, begin), min(place + len(piece), end)
        if first < last:
            found.append((first, piece[first - place:last - place]))
    return found


def written(content, place, piece):
    """Bytes with a piece written at a place; None as the piece makes the place their length."""
    filled = bytes(content) + bytes(max(0, place + len(piece or b"") - len(content)))
    return filled[:place] if piece is None else filled[:place] + piece + filled[place + len(piece):]


class Medium:
    """Files by their number, their names, and the names that came or went since the last sync of their folder, or before
    one that failed; and the number of each pair of the store, once its gate is being opened (`begun`), and once a sync
    behind that was Ok (`rested`). Contents have for each name the file's number and its bytes."""

    def __init__(self, contents, numbers):
        self.files = {number: File(content) for number, content in contents.values()}
        self.names = {path: number for path, (number, _) in contents.items()}
        self.kept, self.moves, self.doubtful = dict(self.names), [], []
        self.begun, self.rested = dict(numbers), dict(numbers)
        self.opened = {}

    def contents(self):
        """What each name leads to now, as the next program finds it where the power stays."""
        return {path: (number, bytes(self.files[number].now)) for path, number in self.names.items()}

    def has_given_up(self, path):
        """Whether a failed sync took for written what no later one writes: bytes of the file of a name, or names of its
        folder."""
        here, _ = split(self.doubtful, os.path.dirname(path))
        return bool(here) or path in self.names and bool(self.files[self.names[path]].given_up())

    def is_in_flight(self, path):
        """Whether bytes of the file of a name, or names of its folder, wait for a sync."""
        here, _ = split(self.moves, os.path.dirname(path))
        return bool(here) or path in self.names and bool(self.files[self.names[path]].writes)

    def move(self, path, number):
        """A name comes, or where no file is given goes."""
        again, self.doubtful = split(self.doubtful, os.path.dirname(path))
        self.moves += again + [(path, number)]
        self.names = moved(self.names, [(path, number)])

    def sync(self, descriptor, is_good):
        opened = self.opened[descriptor]
        if not isinstance(opened, str):
            self.files[opened[0]].sync(is_good)
            self.rested = dict(self.begun) if is_good else self.rested
            return
        here, self.moves = split(self.moves, opened)
        if is_good:
            self.kept = moved(self.kept, here)
        else:
            self.doubtful += here

    def open(self, path, flags, descriptor):
        if path not in self.names and "O_CREAT" in flags:
            number = max(self.files, default=0) + 1
            self.files[number] = File()
            self.move(path, number)
        if path in self.names:
            self.opened[descriptor] = [self.names[path], 0]
            if "O_TRUNC" in flags:
                self.files[self.names[path]].write(0, None)
        elif os.path.isdir(path):
            self.opened[descriptor] = path

    def write(self, descriptor, piece, place=None):
        opened = self.opened[descriptor]
        at = opened[1] if place is None else place
        file = self.files[opened[0]]
        if piece == OPEN and at in GATES and file.now[at:at + 1] != OPEN:
            self.begun[GATES[at]] += 1
        file.write(at, piece)
        if place is None:
            opened[1] += len(piece)


def split(moves, folder):
    """The moves of names in a folder, and the others."""
    return [move for move in moves if os.path.dirname(move[0]) == folder], [
        move for move in moves if os.path.dirname(move[0]) != folder
    ]


def moved(names, moves):
    names = {**names, **dict(moves)}
    return {path: number for path, number in names.items() if number is not None}


def calls_of(words, folder, trace, inject=()):
    """Runs a program under strace, which may let calls fail; gives its calls, each with fields and result, what it
    printed, and its status."""
    injected = [word for one in inject for word in ("-e", f"inject={one}")]
    ran = subprocess.run(
        ["strace", "-qq", "-xx", "-s", "65536", "-o", trace, *injected, *words], cwd=folder, check=False,
        stdin=subprocess.DEVNULL, stdout=subprocess.PIPE, stderr=subprocess.DEVNULL,
    )
    with open(trace, encoding="ascii") as lines:
        calls = [CALL.match(line) for line in lines]
    return [(call[1], FIELD.findall(call[2]), int(call[3], 0)) for call in calls if call], ran.stdout, ran.returncode


def bytes_of(field):
    if field.endswith("..."):
        raise ValueError(f"strace cut a string: {field}")
    return bytes.fromhex(field.strip('"').replace("\\x", ""))


def path_of(field, folder, follows):
    """The path that a call names, with the links on its way, and at its end where the call follows one there."""
    path = os.path.join(folder, os.fsdecode(bytes_of(field)))
    if follows:
        return os.path.realpath(path)
    return os.path.join(os.path.realpath(os.path.dirname(path)), os.path.basename(path))


class Run:
    """A program's run on a medium, call by call, and what it printed. It may be told as if the program wrote nothing
    behind a sync that failed, and made no name there."""

    def __init__(self, medium, folder, printed, writes_again):
        self.medium, self.folder, self.printed, self.writes_again = medium, folder, printed, writes_again
        self.is_over = False

    def path(self, text, follows=False):
        return path_of(text, self.folder, follows)

    def carries(self, name, fields, result):
        """Carries out a call, and says whether it makes a moment."""
        text = [field for field in fields if field.startswith('"')]
        descriptor = int(fields[0]) if fields and fields[0].isdigit() else None
        if name in SYNCS:
            self.is_over = self.is_over or (result < 0 and not self.writes_again)
        elif result < 0 or name in HARMLESS:
            return False
        is_shared = name == "mmap" and "MAP_SHARED" in fields[3] and "PROT_WRITE" in fields[2]
        if name in UNTOLD or is_shared or name.endswith("at") and descriptor is not None:
            raise ValueError(f"nothing says what {name} does to files")
        if name in ("open", "openat", "creat"):
            return self.opens(text[0], fields[-1] if "O_" in fields[-1] else fields[-2], result)
        if name in MOVES:
            return self.moves(name, text)
        if name == "write" and descriptor in (1, 2):
            self.printed += bytes_of(text[0])[:result] if descriptor == 1 else b""
            return True
        return descriptor in self.medium.opened and self.does(name, descriptor, fields, text, result)

    def opens(self, text, flags, descriptor):
        path = self.path(text, "O_EXCL" not in flags and "O_NOFOLLOW" not in flags)
        if self.is_over and path not in self.medium.names and "O_CREAT" in flags:
            return False
        self.medium.open(path, flags, descriptor)
        return True

    def moves(self, name, text):
        """A name comes or goes."""
        names, paths = self.medium.names, [self.path(one) for one in text]
        if name in ("unlink", "unlinkat"):
            if paths[0] in names:
                self.medium.move(paths[0], None)
        elif not self.is_over:
            self.medium.move(paths[1], names[paths[0]])
            if name.startswith("rename"):
                self.medium.move(paths[0], None)
        return True

    def does(self, name, descriptor, fields, text, result):
        """What is done with an open file or folder."""
        opened = self.medium.opened
        if name in SYNCS:
            self.medium.sync(descriptor, result == 0)
        elif name in ("write", "pwrite64"):
            if not self.is_over:
                piece = bytes_of(text[0])[:result]
                self.medium.write(descriptor, piece, None if name == "write" else int(fields[-1]))
        elif name == "ftruncate":
            self.medium.files[opened[descriptor][0]].write(int(fields[1]), None)
        elif name == "lseek":
            opened[descriptor][1] = result
            return False
        elif name == "read":
            if not isinstance(opened[descriptor], str):
                opened[descriptor][1] += result
            return False
        elif name in ("dup", "dup2", "dup3", "fcntl"):
            if name != "fcntl" or "F_DUPFD" in fields[1]:
                opened[result] = opened[descriptor]
            return False
        elif name == "close":
            del opened[descriptor]
            return False
        else:
            raise ValueError(f"nothing says what {name} does to a file")
        return True


def moments_of(medium, calls, folder, printed=b"", writes_again=True):
    """The moments of a run on a medium: behind each call that writes, syncs, prints, or changes a name. What was printed
    before goes on."""
    run = Run(medium, folder, printed, writes_again)
    yield Moment(copy.deepcopy(medium), printed)
    for call in calls:
        if run.carries(*call):
            yield Moment(copy.deepcopy(medium), run.printed)


def choices_of(items, dice, most):
    """Choices of some items, in their order: each, where they are few, else as many as are asked for, with none and all
    among them."""
    if 2 ** len(items) <= most:
        stays = itertools.product([False, True], repeat=len(items))
        return [list(itertools.compress(items, stay)) for stay in stays]
    return [[], items] + [[item for item in items if dice.random() < 0.5] for _ in range(most - 2)]


def torn(piece, dice):
    """A write as a cut may leave it that tore it: its beginning, its end, some of its bytes, or any bytes."""
    if piece is None:
        return [(0, piece)]
    if len(piece) == 1:
        return [(0, dice.randbytes(1))]
    cut = dice.randrange(len(piece) + 1)
    return dice.choice([
        [(0, piece[:cut])], [(cut, piece[cut:])], [(0, dice.randbytes(len(piece)))],
        [(at, piece[at:at + 1]) for at in range(len(piece)) if dice.random() < 0.5],
    ])


def content_after(file, writes, dice, are_torn):
    """The bytes of a file as a cut leaves it with these writes; where some are torn, some others are not left."""
    content = file.kept or b""
    for place, piece in writes:
        how = dice.choice(["torn", "torn", "whole", "none"]) if are_torn else "whole"
        for offset, part in {"torn": torn(piece, dice), "whole": [(0, piece)], "none": []}[how]:
            content = written(content, place + offset, part)
    return content


def left_by_cuts(medium, dice, most):
    """What a cut may leave: the contents by their names, for choices of names and of whole writes, each where they are
    few, and then of torn writes; for each choice of names up to about as many as are asked for."""
    found = {}
    for moves in choices_of(medium.doubtful + medium.moves, dice, most):
        names = moved(medium.kept, moves)
        files = {number: medium.files[number] for number in names.values()}
        pending = [(number, write) for number, file in files.items() for write in file.doubtful + file.writes]
        whole = [(choice, False) for choice in choices_of(pending, dice, most)]
        for choice, are_torn in whole + [(pending, True)] * (most if pending else 0):
            contents = {
                number: content_after(file, [write for owner, write in choice if owner == number], dice, are_torn)
                for number, file in files.items()
            }
            left = {path: (number, contents[number]) for path, number in names.items()}
            found[tuple(sorted(left.items()))] = left
    return list(found.values())
