"""What bin/install says and leaves beside the tree: without HOME, under a narrow umask, and as it removes what it made. It
installs a small release of its own."""

import hashlib
import os
import pathlib
import shutil
import stat
import subprocess

import pytest

TOP = pathlib.Path(__file__).resolve().parents[1]
LINKED = [
    "bin/taxi", "bin/hiring_log", "man/taxi.1", "man/hiring_log.1", "man/taxi-tariff.5", "completions/taxi.bash",
    "completions/_taxi", "vim/syntax/taxi_tariff.vim", "vim/syntax/taxi_drive.vim", "vim/ftdetect/taxi.vim",
]  # fmt: skip


@pytest.fixture(name="release")
def a_release(tmp_path):
    """An unpacked release, each file of which only its owner may read."""
    tree = tmp_path / "unpacked"
    for name in [*LINKED, "VERSION", "libexec/taxi_cli"]:
        (tree / name).parent.mkdir(parents=True, exist_ok=True)
        # A program of a release, which is started once before it is installed.
        (tree / name).write_text("#!/bin/sh\n" if name.startswith("bin/") else f"{name}\n")
    shutil.copy(TOP / "bin/install", tree / "bin/install")
    (tree / "INSTALLED").write_text("version 0\n")
    names = sorted(str(path.relative_to(tree)) for path in tree.rglob("*") if path.is_file())
    sums = [f"{hashlib.sha256((tree / name).read_bytes()).hexdigest()}  ./{name}\n" for name in names]
    (tree / "SHA256SUMS").write_text("".join(sums))
    for path in [tree, *tree.rglob("*")]:
        path.chmod(0o700 if path.is_dir() or path.parent.name in ("bin", "libexec") else 0o600)
    return tree


def installed(release, *words, umask=0o022, home=None):
    """What bin/install says to words, and its status."""
    environment = {"PATH": "/usr/bin:/bin", **({"HOME": str(home)} if home else {})}
    done = subprocess.run(
        ["bash", "-c", f'umask {umask:03o}; exec "$0" "$@"', release / "bin/install", *words], env=environment, text=True,
        capture_output=True, check=False,
    )
    return done.stdout + done.stderr, done.returncode


def folders_of(prefix):
    return sorted(str(path.relative_to(prefix)) for path in prefix.rglob("*") if path.is_dir() and not path.is_symlink())


def test_without_home_it_asks_for_a_prefix(release, tmp_path):
    for words in ([], ["--remove"]):
        assert installed(release, *words) == ("install: HOME is not set, so name a PREFIX\n", 1)
    said, status = installed(release, home=tmp_path / "home")
    assert status == 0 and (tmp_path / "home/.local/lib/heglorwy/VERSION").exists(), said


def test_everybody_may_read_what_was_installed_under_a_narrow_umask(release, tmp_path):
    prefix = tmp_path / "prefix"
    said, status = installed(release, prefix, umask=0o077)
    assert status == 0, said
    for path in [prefix, *prefix.rglob("*")]:
        wanted = 0o755 if path.is_dir() or path.stat().st_mode & stat.S_IXUSR else 0o644
        assert path.is_symlink() or stat.S_IMODE(path.stat().st_mode) == wanted, path
    assert os.access(prefix / "lib/heglorwy/libexec/taxi_cli", os.X_OK)


def test_a_removal_leaves_no_folder_that_was_made(release, tmp_path):
    prefix = tmp_path / "prefix"
    for _ in range(2):  # the second time over what is there
        said, status = installed(release, prefix)
        assert status == 0, said
    assert len(folders_of(prefix)) > 14
    assert installed(release, "--remove", prefix)[1] == 0
    assert list(prefix.iterdir()) == []


def test_a_removal_leaves_what_was_there_or_is_in_use(release, tmp_path):
    prefix = tmp_path / "prefix"
    for name in ("bin", "share/man", "etc"):
        (prefix / name).mkdir(parents=True)
    assert installed(release, prefix)[1] == 0
    (prefix / "share/zsh/site-functions/_mine").write_text("mine")
    assert installed(release, "--remove", prefix)[1] == 0
    assert folders_of(prefix) == ["bin", "etc", "share", "share/man", "share/zsh", "share/zsh/site-functions"]


def test_a_list_of_folders_that_was_changed_takes_nothing_else(release, tmp_path):
    prefix, other = tmp_path / "prefix", tmp_path / "other"
    other.mkdir()
    assert installed(release, prefix)[1] == 0
    with open(prefix / "lib/.heglorwy.made", "a", encoding="ascii") as made:
        made.write("../other\nbin/../../other\n\n.\n")
    assert installed(release, "--remove", prefix)[1] == 0 and other.is_dir() and list(prefix.iterdir()) == []
