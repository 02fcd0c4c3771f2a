"""Parsing street strings: all readings of a string, the fullest first, or the reason for none."""

from typing import Any

import pytest
from tigerline.geocoding.addresses import LONGEST_NAME, Crossing, Reading, Reason, Street, parse_street
from tigerline.geocoding.words import _TYPES, DIRECTIONS, TYPES, same_type

# A street string, and its readings in order: direction, name, type, direction.
READINGS = """
5 Main                     | - Main - -
123 N Main St              | N Main St -; N Main_St - -; - N_Main St -; - N_Main_St - -
5 Main St SW               | - Main St SW; - Main_St - SW; - Main_St_SW - -
5 Oak Hill                 | - Oak Hl -; - Oak_Hill - -
5 Deer Trail Rd            | - Deer_Trail Rd -; - Deer_Trail_Rd - -
5 west main avenue         | W main Ave -; W main_avenue - -; - west_main Ave -; - west_main_avenue - -
5 N. E. 7th                | NE 7th - -; NE Seventh - -; N E._7th - -; N E_7th - -; N E_Seventh - -; - N._E._7th - -; - N_E_7th - -; - N_E_Seventh - -
5 North East 7th           | NE 7th - -; NE Seventh - -; N East_7th - -; N East_Seventh - -; - North_East_7th - -; - North_East_Seventh - -
5 North                    | - North - -
5 Street                   | - Street - -
5 Avenue N                 | - Avenue - N; - Avenue_N - -; - Ave_N - -
300 W 400 S                | W 400 - S; W 400_S - -; - W_400 - S; - W_400_S - -
5 St. John's               | - St._John's - -; - St_John's - -; - St_Johns - -; - St_John_s - -; - Saint_John's - -
0012 Main                  | - Main - -
12B Main                   | - Main - -
5 FM 1960                  | - FM_1960 - -; - F_M_1960 - -; - FM_Road_1960 - -; - Farm_to_Market_Road_1960 - -; - Farm-to-Market_Road_1960 - -
5 Main Apt 4               | - Main - -; - Main_Apt_4 - -
5 Main, Ste. 200           | - Main - -; - Main_Ste._200 - -; - Main_Ste_200 - -
5 Main Bldg C Unit 12-B    | - Main - -; - Main_Bldg_C_Unit_12-B - -
5 Main #4                  | - Main - -
5 Main # 4                 | - Main - -
5 Main Apt #4              | - Main - -
5 Main Apt#4               | - Main - -
5 Main Apt4                | - Main - -; - Main_Apt4 - -
5 Main Rear                | - Main - -; - Main_Rear - -
5 Main Apt Rear            | - Main - -; - Main_Apt_Rear - -
5 Main 2nd Floor           | - Main - -; - Main_2nd_Floor - -; - Main_Second_Floor - -
5 Main P.O. Box 9          | - Main - -; - Main_P.O._Box_9 - -; - Main_PO_Box_9 - -
5 Lot Rd                   | - Lot Rd -; - Lot_Rd - -
5 Old Lot Rd               | - Old_Lot Rd -; - Old_Lot_Rd - -
5 Lot 7                    | - Lot_7 - -
5 Main St 7                | - Main_St_7 - -
""".strip().splitlines()

# A numbered road, a name that it must be read as, and whether this is another word.
ROUTES = """
CR 46                   | County Road 46      | same
CR-46                   | Co Rd 46            | same
CR 46                   | County Highway 46   | other
Co Rd 46                | County Road 46      | same
County Rd 46            | County Road 46      | same
Cnty. Rd. 46            | County Road 46      | same
County Road 46          | Co Rd 46            | same
County Road 46          | County Road 46      | same
Co Hwy 46               | County Hwy 46       | same
SR 17                   | State Route 17      | same
SR 17                   | State Road 17       | same
SR 17                   | State Hwy 17        | other
SR17                    | State Route 17      | same
St Rte 17               | State Route 17      | same
State Highway 17        | State Hwy 17        | same
State Highway 17        | State Route 17      | other
US 31                   | US Hwy 31           | same
U.S. 31                 | US Hwy 31           | same
US Highway 31           | US Hwy 31           | same
US-31                   | US Hwy 31           | same
US 31A                  | US Hwy 31A          | same
I-65                    | Interstate 65       | same
Hwy 31                  | US Hwy 31           | other
Highway 31              | State Hwy 31        | other
Route 31                | County Road 31      | other
Rt 31                   | Highway 31          | same
US Rt 31                | US Hwy 31           | same
United States Hwy 31    | US Hwy 31           | same
AL 25                   | State Hwy 25        | other
AL-25                   | State Route 25      | other
AL Hwy 25               | State Hwy 25        | other
Ala. 25                 | State Hwy 25        | other
Alabama Highway 25      | State Road 25       | other
St Rt 25                | State Rte 25        | same
S.H. 25                 | State Hwy 25        | same
C R 12                  | County Road 12      | same
Cty Rd 12               | County Road 12      | same
County 12               | County Road 12      | other
Co 12                   | County Hwy 12       | other
Road 12                 | County Road 12      | other
Interstate 65           | I-65                | same
""".strip().splitlines()

# What is written, a reading of the street that it must have, and the reasons why a match isn't exact.
NOISE = """
12B Main St                          | - Main St -              | number_suffix
12 B Main St                         | - Main St -              | number_suffix
12-B Main St                         | - Main St -              | number_suffix
12 1/2 Main St                       | - Main St -              | number_suffix
12-1/2 Main St                       | - Main St -              | number_suffix
12½ Main St                          | - Main St -              | number_suffix
12 ½ Main St                         | - Main St -              | number_suffix
12-14 Main St                        | - Main St -              | number_suffix
12 N Main St                         | N Main St -              |
12 B St                              | - B St -                 |
Apt 4, 12 Main St                    | - Main St -              | extra_words
Ste. 200 12 Main St                  | - Main St -              | extra_words
#4, 12 Main St                       | - Main St -              | extra_words
#12 N Main St                        | N Main St -              | extra_words
12 Main St No. 4                     | - Main St -              | extra_words
12 County Road No. 4                 | - County_Road_No_4 - -   |
12 Main St (rear)                    | - Main St -              | extra_words
12 Main St c/o J. Smith              | - Main St -              | extra_words
c/o J. Smith, 12 Main St             | - Main St -              | extra_words
12 Main St, Attn: Payroll            | - Main St -              | extra_words
City Hall, 12 Main St                | - Main St -              | extra_words
County Courthouse 12 Main St         | - Main St -              | extra_words
12 Main St, Milford                  | - Main St -              | extra_words
12 Main St Apt 4, Milford, AL 35042  | - Main St -              | extra_words
12 First Ave                         | - 1st Ave -              |
12 1st Ave                           | - First Ave -            |
12 Twelfth St                        | - 12th St -              |
12 Mt Vernon Rd                      | - Mount_Vernon Rd -      |
12 Fort Payne Rd                     | - Ft_Payne Rd -          |
12 St John Rd                        | - Saint_John Rd -        |
12 Avenue B                          | - Ave_B - -              |
12 Ave. B                            | - Avenue_B - -           |
12 MLK Dr                            | - Martin_Luther_King_Jr Dr - |
12 M.L. King Jr. Dr                  | - Martin_Luther_King_Jr Dr - |
12 Dr. Martin Luther King Blvd       | - Martin_Luther_King_Jr Blvd - |
12 O’Neal Rd                         | - ONeal Rd -             |
12 Shopping Centre Dr                | - Shopping_Center Dr -   |
""".strip().splitlines()

REASONS = """
                        | no_house_number
   ...                  | no_house_number
Main St                 | no_house_number
One Main St             | no_house_number
1st St                  | no_house_number
Poblano Rd              | no_house_number
5                       | no_street
5 #4                    | no_street
5B                      | no_street
164A-20 Main St         | hyphenated_number
164-B2 Main St          | hyphenated_number
164-123456 Main St      | hyphenated_number
1/2 Main St             | fractional_number
1234567890123 Main      | number_too_long
N6W23001 Bluemound      | grid_address
12S345 Main St          | grid_address
123N Main St            | grid_address
5 Main St & Oak Ave     | intersection
PO Box 12               | po_box_or_rural_route
P.O. Box 12             | po_box_or_rural_route
P O Box 12              | po_box_or_rural_route
Post Office Box 12      | po_box_or_rural_route
POB 12                  | po_box_or_rural_route
Box 12                  | po_box_or_rural_route
RR 2 Box 7              | po_box_or_rural_route
R.R. 2                  | po_box_or_rural_route
HC 5 Box 7              | po_box_or_rural_route
A & B & C               | intersection
General Delivery        | po_box_or_rural_route
""".strip(
    "\n"
).splitlines()


def cells(row: str) -> list[str]:
    return [cell.strip() for cell in row.split("|")]


def written(reading: Reading) -> str:
    fields = (reading.predir, reading.name, reading.type, reading.sufdir)
    return " ".join(field.replace(" ", "_") or "-" for field in fields)


@pytest.mark.parametrize("row", READINGS)
def test_readings(row: str) -> None:
    text, expected = cells(row)
    street = parse_street(text)
    assert isinstance(street, Street)
    assert "; ".join(map(written, street.readings)) == expected
    assert str(street.number) == text.split()[0].rstrip("B").lstrip("0")


@pytest.mark.parametrize("row", ROUTES)
def test_routes(row: str) -> None:
    text, name, kind = cells(row)
    street = parse_street(f"5 {text} N", "AL")
    assert isinstance(street, Street)
    changes = (Reason.ROUTE,) if kind == "other" else ()
    assert Reading(name, sufdir="N", changes=changes) in street.readings


@pytest.mark.parametrize("row", NOISE)
def test_noise(row: str) -> None:
    text, expected, reasons = cells(row)
    street = parse_street(text, "AL", ("Milford", "AL", "35042"))
    assert isinstance(street, Street) and street.forms[-1].number == 12
    found = [(written(reading), " ".join(reading.changes)) for reading in street.forms[-1].readings]
    assert (expected, reasons) in found


@pytest.mark.parametrize("row", REASONS)
def test_reasons(row: str) -> None:
    text, reason = cells(row)
    assert parse_street(text) is Reason(reason)


def test_abbreviations() -> None:
    """The fields have two and four places, and no word means two types."""
    assert set(DIRECTIONS.values()) == {"N", "S", "E", "W", "NE", "NW", "SE", "SW"}
    assert all(len(abbreviation) <= 4 for abbreviation in TYPES.values())
    assert len(TYPES) == len(_TYPES.replace("|", " ").split())
    assert same_type("Pky", "Pkwy") and same_type("AVENUE", "Ave") and not same_type("St", "Ave")
    assert same_type("Xyz", "xYZ")


def test_long_names() -> None:
    street = parse_street("5 " + "x" * LONGEST_NAME)
    assert isinstance(street, Street) and len(street.readings) == 1
    assert parse_street("5 " + "x" * (LONGEST_NAME + 1)) == Street(5, ())
    assert parse_street("5 " + "é" * (LONGEST_NAME + 1)) == Street(5, ())
    assert parse_street("5 " + "N Main St " * 50_000) == Street(5, ())


class TestAnything:
    """Property tests: no string fails, and an address written from the fields is read as the same fields."""

    def test_no_string_fails(self) -> None:
        hypothesis: Any = pytest.importorskip("hypothesis", reason="no hypothesis")
        strategies: Any = pytest.importorskip("hypothesis.strategies", reason="no hypothesis")
        words = strategies.sampled_from(
            ["12", "1/2", "N", "East", "Main", "St", "Apt", "#", "4", "CR", "US", "PO", "Box", "&", ".", ",", "\u00bd"]
        )
        streets = strategies.lists(words, max_size=9).map(" ".join)

        def check(text: str) -> None:
            street = parse_street(text)
            assert isinstance(street, (Street, Crossing, Reason))
            if isinstance(street, Street):
                assert len(set(street.readings)) == len(street.readings)
                assert all(0 < len(reading.name) <= LONGEST_NAME for reading in street.readings)

        texts = strategies.one_of(strategies.text(), streets, streets.map(lambda street: f"7 {street}"))
        hypothesis.settings(max_examples=400)(hypothesis.given(texts)(check))()

    def test_canonical_address(self) -> None:
        hypothesis: Any = pytest.importorskip("hypothesis", reason="no hypothesis")
        strategies: Any = pytest.importorskip("hypothesis.strategies", reason="no hypothesis")
        directions = strategies.sampled_from(["", "N", "S", "E", "W", "NE", "NW", "SE", "SW"])
        known = strategies.sampled_from(
            ["Oak", "Hill", "North", "Park", "St", "Lot", "Rear", "7", "County", "Road", "E"]
        )
        word = strategies.one_of(known, strategies.from_regex(r"[A-Za-z][a-z']{0,9}", fullmatch=True))
        names = strategies.lists(word, min_size=1, max_size=4).map(" ".join).filter(lambda name: len(name) <= 30)

        def check(number: int, predir: str, name: str, type_: str, sufdir: str) -> None:
            text = " ".join(part for part in (str(number), predir, name, type_, sufdir) if part)
            street = parse_street(text)
            assert isinstance(street, Street) and street.number == number
            assert Reading(name, predir, type_, sufdir) in street.readings

        numbers, types = strategies.integers(0, 10**11 - 1), strategies.sampled_from(["", *sorted({*TYPES.values()})])
        given = hypothesis.given(numbers, directions, names, types, directions)
        hypothesis.settings(max_examples=400)(given(check))()
