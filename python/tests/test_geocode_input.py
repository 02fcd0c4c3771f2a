"""Files of addresses as people have them: delimiters, encodings, head lines, and addresses on one line."""

from pathlib import Path

import pytest
from tigerline.geocoding.address_input import USUAL_NAMES, USUAL_ONE_LINE_NAMES, Address, AddressFile
from tigerline.interrupts import Interrupts
from tigerline.geocoding.one_line import parts_of
from tigerline.geocoding.table_input import TableFile, delimiter_of, named_columns

STREET = Address("1", "8 Oak St", "Milford", "AL", "35042")

# A file of one address, its encoding, options, and the address.
FILES = [
    ("1,8 Oak St,Milford,AL,35042", "utf-8", "", STREET),
    ("1;8 Oak St;Milford;AL;35042", "utf-8", "", STREET),
    ("1|8 Oak St|Milford|AL|35042", "utf-8", "", STREET),
    ("1\t8 Oak St\tMilford\tAL\t35042", "utf-8", "", STREET),
    ("1\t8 Oak St\tMilford\tAL\t35042\r\n", "utf-16", "", STREET),
    ("\ufeff1\t8 Oak St\tMilford\tAL\t35042\r\n", "utf-16-be", "", STREET),
    ("\ufeff1;8 Oak St;Milford;AL;35042", "utf-8", "", STREET),
    ("\ufeff1;8 Oak St;Milford;AL;35042", "utf-8", "encoding=UTF8", STREET),
    (
        "1;8 Oak St, Apt 4, rear, a, b;Milford;AL;35042",
        "utf-8",
        "",
        STREET._replace(street="8 Oak St, Apt 4, rear, a, b"),
    ),
    ('1,"8;9 Oak St",Milford,AL,35042', "utf-8", "", STREET._replace(street="8;9 Oak St")),
    ("1#8 Oak St#Milford#AL#35042", "utf-8", "delimiter=#", STREET),
    ("1,8 Oak St,Milford,AL,35042", "utf-8", "delimiter=comma", STREET),
    ("\n\nStreet Address\tPostcode\n8 Oak St\t35042\n", "utf-8", "header", Address("4", "8 Oak St", zip="35042")),
    ("ID;Address;Address 2;City/Town;ST;ZIP Code\n1;8 Oak St;x;Milford;AL;35042\n", "utf-8", "header", STREET),
    ("Address,Street,Zip\nx,8 Oak St,35042\n", "utf-8", "header", Address("2", "8 Oak St", zip="35042")),
    ("Street,City|Town\n8 Oak St,Milford\n", "utf-8", "header", Address("2", "8 Oak St", "Milford")),
    ("No,Wo,PLZ\n1,8 Oak St,35042\n", "utf-8", "header id=No street=wo zip=PLZ", Address("1", "8 Oak St", zip="35042")),
    ("street,other\nx,8 Oak St\n", "utf-8", "header street=Other", Address("2", "8 Oak St")),
    ("8 Oak St, Milford, AL 35042", "utf-8", "one-line", STREET),
    ('"8 Oak St, Milford, AL 35042"', "utf-8", "one-line", STREET),
    ("1\t8 Oak St, Milford, AL 35042", "utf-8", "one-line delimiter=tab", STREET),
    ('Nr,Location\n1,"8 Oak St, Milford, AL 35042"\n', "utf-8", "header one-line id=Nr", STREET),
]

# A file, options, and the end of the message.
FAULTS = [
    ("1;8 Oak St;Milford;AL\n", "", "line 1 has 4 columns, not 5: id, street, city, state and zip"),
    ("id,street\n1,8 Oak St\n", "", "line 1 has 2 columns, not 5: id, street, city, state and zip; it looks like a head "
     "line (--header)"),
    ("id,zip\n1,35042\n", "header", "line 1, the head line, has no column street, but id, zip: name it by --columns "
     "street=NAME"),
    ("id,zip\n1,35042\n", "header street=x", "line 1, the head line: no column has the name 'x'; the columns are id, zip"),
    ("street,zip\n8 Oak St\n", "header", "line 2 has 1 column, not 2 as the head line"),
]  # fmt: skip


def address_file(path: Path, text: str, encoding: str, options: str) -> AddressFile:
    path.write_bytes(text.encode(encoding))
    words = dict(word.partition("=")[::2] for word in options.split())
    flags = ("header" in words, "one-line" in words)
    delimiter, given = words.pop("delimiter", None), words.pop("encoding", None)
    named = {name: value for name, value in words.items() if value}
    return AddressFile(TableFile(path, "IN", given, delimiter and delimiter_of(delimiter)), *flags, named)


@pytest.mark.parametrize(("text", "encoding", "options", "expected"), FILES)
def test_files(tmp_path: Path, text: str, encoding: str, options: str, expected: Address) -> None:
    with Interrupts() as interrupts:
        assert list(address_file(tmp_path / "in", text, encoding, options).addresses(interrupts)) == [expected]


@pytest.mark.parametrize(("text", "options", "message"), FAULTS)
def test_faults(tmp_path: Path, text: str, options: str, message: str) -> None:
    with Interrupts() as interrupts, pytest.raises(OSError) as caught:
        list(address_file(tmp_path / "in", text, "utf-8", options).addresses(interrupts))
    assert str(caught.value) == f"IN: {message}"


@pytest.mark.parametrize(
    ("content", "message"),
    [
        (b"1,8 Oak St,,,\n2,8 Ca\xf1on St,,,\n", "line 2 isn't in utf-8"),
        ("\ufeff1\t8 Oak St\t\t\t\n".encode("utf-16-le") + b"x", "line 2 isn't in utf-16"),
    ],
)
def test_encodings(tmp_path: Path, content: bytes, message: str) -> None:
    (tmp_path / "in").write_bytes(content)
    with Interrupts() as interrupts, pytest.raises(OSError) as caught:
        list(AddressFile(TableFile(tmp_path / "in", "IN")).addresses(interrupts))
    assert str(caught.value) == f"IN: {message}: give the encoding, such as --encoding cp1252"


def test_names_of_columns() -> None:
    expected = {"street": "Street Address", "zip": "Postcode", "city": "City, Town"}
    assert named_columns(["street=Street Address,zip=Postcode", '"city=City, Town"'], USUAL_NAMES) == expected
    for text in ("zip", "zip=", "plz=PLZ", "=x"):
        with pytest.raises(
            ValueError, match=f"--columns has '{text}': write COLUMN=NAME, where COLUMN is one of id, address"
        ):
            named_columns([text], USUAL_ONE_LINE_NAMES)


# An address on one line, and its street, city, state and ZIP Code.
ONE_LINE = """
801 N Broad St, Milford, AL 35042             | 801 N Broad St | Milford | AL | 35042
801 N Broad St, Milford, AL, 35042-1234       | 801 N Broad St | Milford | AL | 35042-1234
801 N Broad St Milford AL 35042               | 801 N Broad St | Milford | AL | 35042
801 N. Broad St. Milford, Alabama             | 801 N. Broad St. | Milford | Alabama |
801 Broad St N Apt 4 West Point AL            | 801 Broad St N Apt 4 | West Point | AL |
801 Broad St #4 Milford                       | 801 Broad St #4 | Milford | |
801 N Broad St, Apt 4                         | 801 N Broad St, Apt 4 | | |
801 N Broad St, Apt 4, Milford                | 801 N Broad St, Apt 4 | Milford | |
801 N Broad St, Milford, AL 35042, USA        | 801 N Broad St | Milford | AL | 35042
8 Oak Ave St Louis MO 63101                   | 8 Oak Ave | St Louis | MO | 63101
8 Oak St St Paul, Minnesota                   | 8 Oak St | St Paul | Minnesota |
12 County Road 46 Milford AL                  | 12 County Road 46 | Milford | AL |
12 US Hwy 31 S Milford AL                     | 12 US Hwy 31 S | Milford | AL |
12 Fox Ct 35042                               | 12 Fox Ct | | | 35042
12 Fox Ct                                     | 12 Fox Ct | | |
12 Fox Ln Hartford CT 06101                   | 12 Fox Ln | Hartford | CT | 06101
12 Fox Ct, Hartford, CT                       | 12 Fox Ct | Hartford | CT |
12 Fox Ln, New York New York 10001.0          | 12 Fox Ln | New York | New York | 10001
12 Broadway                                   | 12 Broadway | | |
Main St & Oak Ave, Milford AL                 | Main St & Oak Ave | Milford | AL |
35042                                         | 35042 | | |
""".strip().splitlines()


@pytest.mark.parametrize("row", ONE_LINE)
def test_one_line(row: str) -> None:
    text, *parts = (cell.strip() for cell in row.split("|"))
    assert list(parts_of(text)) == parts
