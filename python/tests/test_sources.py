"""Counties as they are shipped: folders, zip files, names in any case; and invalid files."""

import os
import resource
import struct
import warnings
import zipfile
import zlib
from collections.abc import Callable
from pathlib import Path

import pytest
import tigerline
from counties import CODE, EXAMPLES, SEGMENTS, copy_county, program_of, records, write_shapes, zip_folder

EXPECTED = [int(record[5:15]) for record in records(EXAMPLES / f"TGR{CODE}.RT1")]


def segments(data: Path, counties: str | list[str] | None = None, extractd: str | None = None) -> list[int | None]:
    return [row.TLID for row in tigerline.rows("TRUE", data, counties, extractd=extractd)]


@pytest.mark.usefixtures("extractd", "scratch")
class TestForms:
    """All forms of a county have the same segments."""

    @pytest.mark.parametrize("name", [str.upper, str.lower, str.title])
    def test_names_in_any_case(self, tmp_path: Path, name: Callable[[str], str]) -> None:
        copy_county(tmp_path / "data/AL", name=name)
        assert segments(tmp_path / "data", CODE) == EXPECTED

    @pytest.mark.parametrize("name", ["TGR01001.ZIP", "tgr01001.zip"])
    def test_zip_in_folders(self, tmp_path: Path, name: str) -> None:
        (tmp_path / "data/AL").mkdir(parents=True)
        zip_folder(copy_county(tmp_path / "plain", name=str.lower), tmp_path / "data/AL" / name, "some/folder/")
        assert segments(tmp_path / "data", "AL") == EXPECTED

    def test_zip_by_its_path(self, tmp_path: Path) -> None:
        archive = zip_folder(copy_county(tmp_path / "plain"), tmp_path / "any name.zip")
        assert segments(archive) == segments(archive, "01") == EXPECTED

    def test_unpacked_files_come_first(self, tmp_path: Path) -> None:
        (copy_county(tmp_path) / "TGR01001.ZIP").write_bytes(b"no zip file")
        assert segments(tmp_path, CODE) == EXPECTED

    def test_county_nearest_to_the_top(self) -> None:
        assert (EXAMPLES / "one/TGR01001.RT1").exists()
        assert segments(EXAMPLES, CODE) == EXPECTED

    def test_states_and_codes(self, tmp_path: Path) -> None:
        for code in ("01001", "01003", "28033"):
            copy_county(tmp_path / code, code=code)
        counties = [row.county for row in tigerline.rows("TRUE", tmp_path, ["28033", "AL", "01001"])]
        assert counties == ["28033"] * SEGMENTS + ["01001"] * SEGMENTS + ["01003"] * SEGMENTS
        assert [row.county for row in tigerline.rows("TRUE", tmp_path)][::SEGMENTS] == ["01001", "01003", "28033"]

    def test_missing_types_are_reported(self, tmp_path: Path) -> None:
        copy_county(tmp_path, "15")
        with pytest.warns(UserWarning, match=r"has no TGR01001.RT4, TGR01001.RT6"):
            assert segments(tmp_path) == EXPECTED
        with warnings.catch_warnings():
            warnings.simplefilter("error")
            assert segments(EXAMPLES, CODE) == EXPECTED


def flip(path: Path, at: int, content: bytes) -> None:
    data = bytearray(path.read_bytes())
    data[at : at + len(content)] = content
    path.write_bytes(data)


def state_less(checked: int | None = None) -> Callable[[Path], None]:
    """Makes both headers of the first member, RT1, state 1,000 bytes and the checksum of the first `checked`."""

    def change(archive: Path) -> None:
        data = archive.read_bytes()
        central = data.index(b"PK\x01\x02")
        for size_at, checksum_at in ((22, 14), (central + 24, central + 16)):
            flip(archive, size_at, struct.pack("<I", 1000))
            if checked is not None:
                content = (EXAMPLES / f"TGR{CODE}.RT1").read_bytes()[:checked]
                flip(archive, checksum_at, struct.pack("<I", zlib.crc32(content)))

    return change


def state_more(archive: Path) -> None:
    """Makes the header of the first member state a byte more than a gibibyte."""
    flip(archive, archive.read_bytes().index(b"PK\x01\x02") + 24, struct.pack("<I", 2**30 + 1))


def cut(archive: Path) -> None:
    archive.write_bytes(archive.read_bytes()[:-5000])


def damage(archive: Path) -> None:
    flip(archive, 2000, b"\xff" * 40)


def encrypt(archive: Path) -> None:
    data = archive.read_bytes()
    flip(archive, 6, b"\x01")
    flip(archive, data.index(b"PK\x01\x02") + 8, b"\x01")


def misname(archive: Path) -> None:
    """Marks the name of a member as UTF-8, although it isn't."""
    central = archive.read_bytes().index(b"PK\x01\x02")
    flip(archive, central + 9, b"\x08")
    flip(archive, central + 46, b"\xff")


def packed_by_bzip2(archive: Path) -> None:
    with zipfile.ZipFile(archive, "w", zipfile.ZIP_BZIP2) as file:
        file.write(EXAMPLES / f"TGR{CODE}.RT1", f"TGR{CODE}.RT1")


def packed_again(archive: Path) -> None:
    inner = archive.rename(archive.with_name("inner"))
    with zipfile.ZipFile(archive, "w") as outer:
        outer.write(inner, "AL/TGR01001.ZIP")
    inner.unlink()


def add(name: str) -> Callable[[Path], None]:
    def change(archive: Path) -> None:
        with zipfile.ZipFile(archive, "a") as file:
            file.writestr(name, b"4")

    return change


def add_link(archive: Path) -> None:
    archive.unlink()
    link = zipfile.ZipInfo("TGR01001.RT1")
    link.external_attr = 0o120777 << 16
    with zipfile.ZipFile(archive, "w") as file:
        file.writestr(link, "/etc/passwd")


@pytest.mark.usefixtures("scratch")
class TestBadSources:
    """Each fault is one error, and the program isn't started or leaves nothing."""

    @pytest.fixture
    def never(self, tmp_path: Path) -> str:
        return program_of(tmp_path / "never", "echo started; exit 9")

    @pytest.mark.parametrize(
        ("change", "text"),
        [
            (cut, "isn't a whole zip file"),
            (damage, "isn't a whole zip file"),
            (state_less(), "isn't a whole zip file"),
            (state_less(1000), "isn't a whole zip file"),
            (state_less(1001), "'TGR01001.RT1' has more than the stated 1000 bytes"),
            (state_more, "unpacks to more than 1,073,741,824 bytes"),
            (encrypt, "can't be unpacked"),
            (misname, "isn't a whole zip file"),
            (packed_by_bzip2, "can't be unpacked: 'TGR01001.RT1' isn't compressed by deflate"),
            (packed_again, "has the zip file 'AL/TGR01001.ZIP' in it"),
            (add("../TGR01001.RT4"), "has a member outside its folder: '../TGR01001.RT4'"),
            (add("/TGR01001.RT4"), "has a member outside its folder"),
            (add("a\\..\\..\\TGR01001.RT4"), "has a member outside its folder"),
            (add("copy/tgr01001.rt1"), "has tgr01001.rt1 twice"),
            (add("TGR01003.RT1"), "has more than one county, 01001 and 01003: unpack it"),
            (add("TGR01003.RT4"), "has more than one county, 01001 and 01003: unpack it"),
            (add_link, "has a link in place of a file"),
        ],
    )
    def test_bad_zip_files(self, tmp_path: Path, never: str, change: Callable[[Path], None], text: str) -> None:
        (tmp_path / "data").mkdir()
        archive = zip_folder(copy_county(tmp_path / "plain"), tmp_path / "data/TGR01001.ZIP")
        change(archive)
        for data in (archive, tmp_path / "data"):
            with pytest.raises(OSError, match="TGR01001.ZIP") as caught:
                segments(data, CODE, never)
            assert text in str(caught.value) and "\n" not in str(caught.value)
        assert not (tmp_path / "TGR01001.RT4").exists()

    def test_member_longer_than_stated(self, tmp_path: Path, never: str) -> None:
        """It is refused soon after the stated size. Of a longer file the system would write the first 16 MiB."""
        archive = tmp_path / "TGR01001.ZIP"
        with zipfile.ZipFile(archive, "w", zipfile.ZIP_DEFLATED) as file:
            file.writestr("TGR01001.RT1", bytes(2**26))
        state_less()(archive)
        limits = resource.getrlimit(resource.RLIMIT_FSIZE)
        resource.setrlimit(resource.RLIMIT_FSIZE, (2**24, limits[1]))
        try:
            with pytest.raises(OSError, match="isn't a whole zip file: Bad CRC-32"):
                segments(archive, CODE, never)
        finally:
            resource.setrlimit(resource.RLIMIT_FSIZE, limits)

    def test_zip_without_the_county(self, tmp_path: Path, never: str) -> None:
        archive = zip_folder(copy_county(tmp_path / "plain", code="01003"), tmp_path / "TGR01001.ZIP")
        with pytest.raises(FileNotFoundError, match="TGR01001.ZIP has no TGR01001.RT1"):
            segments(tmp_path, CODE, never)
        with pytest.raises(FileNotFoundError, match="has no TGR01001.RT1"):
            segments(archive, CODE, never)

    @pytest.mark.parametrize(
        ("counties", "error"),
        [
            ("1001", ValueError),
            ("XX", ValueError),
            ("0100l", ValueError),
            ("02", FileNotFoundError),
            ("01003", FileNotFoundError),
        ],
    )
    def test_counties_that_are_not_there(self, never: str, counties: str, error: type[Exception]) -> None:
        with pytest.raises(error):
            segments(EXAMPLES, counties, never)

    def test_no_county_at_all(self, tmp_path: Path, never: str) -> None:
        with pytest.raises(FileNotFoundError, match="has no county"):
            segments(tmp_path, None, never)
        with pytest.raises(FileNotFoundError):
            segments(tmp_path / "nowhere", None, never)
        os.mkfifo(tmp_path / "pipe")
        with pytest.raises(OSError, match="neither a folder nor a zip file"):
            segments(tmp_path / "pipe", None, never)
        (tmp_path / "text").write_text("no zip file")
        with pytest.raises(OSError, match="isn't a whole zip file"):
            segments(tmp_path / "text", None, never)

    def test_county_twice(self, tmp_path: Path, never: str) -> None:
        copy_county(tmp_path / "a")
        copy_county(tmp_path / "b")
        with pytest.raises(OSError, match="has county 01001 twice: .*/a/TGR01001.RT1 and .*/b/TGR01001.RT1"):
            segments(tmp_path, None, never)
        copy_county(tmp_path / "a", "1", name=str.lower)
        with pytest.raises(OSError, match="the same file of a county"):
            segments(tmp_path / "a", None, never)

    def test_shapes_without_type_2(self, never: str, frames: None) -> None:
        with pytest.raises(FileNotFoundError, match="has no TGR01001.RT2"):
            tigerline.select("TRUE", EXAMPLES, CODE, geometry="shape", extractd=never)

    def test_broken_link(self, tmp_path: Path, never: str) -> None:
        os.symlink("nowhere", tmp_path / "TGR01001.RT1")
        with pytest.raises(FileNotFoundError, match="has no TGR01001.RT1"):
            segments(tmp_path, None, never)

    @pytest.mark.parametrize(
        ("line", "said"),
        [
            (b"2 short\n", "refused 1 rt2 line 8 WrongLength\ncounty 01001"),
            (b"3" + b" " * 207 + b"\n", "refused 2 rt2 line 8 WrongType\ncounty 01001"),
            (b"2" + b" " * 207 + b"\n", "refused 3 rt2 line 8 BadTlid\ncounty 01001"),
            (b"\n", "refused 1 rt2 line 8 WrongLength\ncounty 01001"),
        ],
    )
    def test_bad_shapes(self, tmp_path: Path, frames: None, extractd: str, line: bytes, said: str) -> None:
        path = write_shapes(copy_county(tmp_path))
        path.write_bytes(b"".join(path.read_bytes().splitlines(keepends=True)[:7]) + line)
        with pytest.raises(tigerline.RefusedError) as caught:
            tigerline.select("TRUE", tmp_path, CODE)
        assert str(caught.value) == said
