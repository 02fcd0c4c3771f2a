"""Files that appear completely or not at all."""

import contextlib
import errno
import os
import stat
from pathlib import Path

import pytest
from tigerline.interrupts import Interrupts
from tigerline.output import pending_file
from tigerline.scratch import scratch_folder


def no_links(source: Path, target: Path) -> None:
    raise OSError(errno.EPERM, os.strerror(errno.EPERM), str(source), None, str(target))


@pytest.mark.parametrize("has_links", [True, False])
@pytest.mark.parametrize("overwrite", [True, False])
def test_publish(tmp_path: Path, monkeypatch: pytest.MonkeyPatch, has_links: bool, overwrite: bool) -> None:
    if not has_links:
        monkeypatch.setattr(os, "link", no_links)
    final = tmp_path / "a.csv"
    with pending_file(final, overwrite) as file:
        file.path.write_text("new")
        assert not final.exists()
        file.publish(Interrupts())
    assert final.read_text() == "new" and list(tmp_path.iterdir()) == [final]


@pytest.mark.parametrize("has_links", [True, False])
def test_file_that_appears_meanwhile(tmp_path: Path, monkeypatch: pytest.MonkeyPatch, has_links: bool) -> None:
    if not has_links:
        monkeypatch.setattr(os, "link", no_links)
    final = tmp_path / "a.csv"
    with pytest.raises(FileExistsError) as caught, pending_file(final, overwrite=False) as file:
        file.path.write_text("new")
        final.write_text("other")
        file.publish(Interrupts())
    assert caught.value.filename == str(final)
    assert final.read_text() == "other" and list(tmp_path.iterdir()) == [final]


@pytest.mark.parametrize("is_late", [True, False])
@pytest.mark.parametrize("overwrite", [True, False])
def test_pipe_is_kept(tmp_path: Path, overwrite: bool, is_late: bool) -> None:
    """It is never replaced, whether it is there from the start or appears meanwhile."""
    final = tmp_path / "a.csv"
    if not is_late:
        os.mkfifo(final)
    with pytest.raises(OSError, match="a.csv is a device or a pipe"), pending_file(final, overwrite) as file:
        file.path.write_text("new")
        os.mkfifo(final)
        file.publish(Interrupts())
    assert list(tmp_path.iterdir()) == [final] and final.is_fifo()


@pytest.mark.parametrize("overwrite", [True, False])
def test_files_of_a_shapefile(tmp_path: Path, overwrite: bool) -> None:
    """The one with the output's name comes last."""
    (tmp_path / "a.dbf").write_text("old")
    with contextlib.ExitStack() as stack:
        file = stack.enter_context(pending_file(tmp_path / "a.SHP", overwrite))
        for suffix in (".shp", ".dbf"):
            file.path.with_suffix(suffix).write_text("new")
        if not overwrite:
            stack.enter_context(pytest.raises(FileExistsError, match="a.dbf"))
        file.publish(Interrupts())
    assert sorted(path.name for path in tmp_path.iterdir()) == (["a.SHP", "a.dbf"] if overwrite else ["a.dbf"])
    assert (tmp_path / "a.dbf").read_text() == ("new" if overwrite else "old")


def test_link_stays_a_link(tmp_path: Path) -> None:
    (tmp_path / "real.csv").write_text("old")
    (tmp_path / "a.csv").symlink_to("real.csv")
    with pending_file(tmp_path / "a.csv", overwrite=True) as file:
        file.path.write_text("new")
        file.publish(Interrupts())
    assert (tmp_path / "a.csv").is_symlink() and (tmp_path / "real.csv").read_text() == "new"


def test_disk_that_fails(tmp_path: Path, monkeypatch: pytest.MonkeyPatch) -> None:
    """The system may report a failed write only when it stores the file, so this comes before it is published."""

    def fail(descriptor: int) -> None:
        raise OSError(errno.EIO, os.strerror(errno.EIO))

    monkeypatch.setattr(os, "fsync", fail)
    with pytest.raises(OSError, match="Input/output error: .*/a.csv"), pending_file(tmp_path / "a.csv", False) as file:
        file.path.write_text("new")
        file.publish(Interrupts())
    assert not list(tmp_path.iterdir())


def test_temporary_folders(tmp_path: Path) -> None:
    """Others can neither open them nor guess their names, as a counter or the number of the process would let them."""
    previous = os.umask(0)
    try:
        with scratch_folder(tmp_path) as first, scratch_folder(tmp_path) as second:
            assert [stat.S_IMODE(folder.stat().st_mode) for folder in (first, second)] == [0o700, 0o700]
            assert sum(one != other for one, other in zip(first.name, second.name, strict=True)) > 3
    finally:
        os.umask(previous)
    assert not list(tmp_path.iterdir())


def test_error_in_the_block(tmp_path: Path) -> None:
    with pytest.raises(KeyError), pending_file(tmp_path / "a.csv", overwrite=False) as file:
        file.path.write_text("half")
        raise KeyError
    assert not list(tmp_path.iterdir())
