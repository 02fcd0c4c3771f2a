#!/usr/bin/env python3
"""Writes a small made-up county for the examples: TGR01001.RT1, .RT4, .RT5
and .RT6, and in the folder `one` what they have of a single segment.

    python3 tools/make_county.py [FOLDER]

The files go into FOLDER, by default `examples`. Every run writes the same
bytes: the numbers come from a generator in this script, so no version of
Python changes them. Nothing in the files describes a real street, stream or
boundary.
"""

import argparse
from collections.abc import Iterable, Sequence
from pathlib import Path
from typing import TypeVar

TOP = Path(__file__).resolve().parent.parent
CODE = "01001"
SEED = 20060101
JOINED_SEED = 59  # for types 4, 5 and 6, so that type 1 doesn't depend on them
ONE = 146  # the segment of the folder `one`, counted from 1
LINE_END = b"\r\n"

# Lengths of lines by record type.
LENGTHS = {"1": 228, "4": 58, "5": 56, "6": 76}

Choice = TypeVar("Choice")
# A record by its fields, and the segments of a feature.
Fields = dict[str, str]
Chain = list[Fields]


def layout(text: str) -> dict[str, tuple[int, int]]:
    """Returns the first and the last place of each field."""
    rows = [row.replace("-", " ").split() for row in text.split(", ")]
    return {name: (int(places[0]), int(places[-1])) for name, *places in rows}


# The places, counted from 1, of each field that is filled in.
TYPE_1 = layout(
    "RT 1, VERSION 2-5, TLID 6-15, SIDE1 16, SOURCE 17, FEDIRP 18-19, FENAME 20-49, FETYPE 50-53, FEDIRS 54-55, "
    "CFCC 56-58, FRADDL 59-69, TOADDL 70-80, FRADDR 81-91, TOADDR 92-102, FRIADDL 103, TOIADDL 104, FRIADDR 105, "
    "TOIADDR 106, ZIPL 107-111, ZIPR 112-116, STATEL 131-132, STATER 133-134, COUNTYL 135-137, COUNTYR 138-140, "
    "COUSUBL 141-145, COUSUBR 146-150, PLACEL 161-165, PLACER 166-170, TRACTL 171-176, TRACTR 177-182, "
    "BLOCKL 183-186, BLOCKR 187-190, FRLONG 191-200, FRLAT 201-209, TOLONG 210-219, TOLAT 220-228"
)
TYPE_4 = layout(
    "RT 1, VERSION 2-5, TLID 6-15, RTSQ 16-18, FEAT1 19-26, FEAT2 27-34, FEAT3 35-42, FEAT4 43-50, FEAT5 51-58"
)
TYPE_5 = layout("RT 1, VERSION 2-5, FILE 6-10, FEAT 11-18, FEDIRP 19-20, FENAME 21-50, FETYPE 51-54, FEDIRS 55-56")
TYPE_6 = layout(
    "RT 1, VERSION 2-5, TLID 6-15, RTSQ 16-18, FRADDL 19-29, TOADDL 30-40, FRADDR 41-51, TOADDR 52-62, FRIADDL 63, "
    "TOIADDL 64, FRIADDR 65, TOIADDR 66, ZIPL 67-71, ZIPR 72-76"
)
LAYOUTS = {"1": TYPE_1, "4": TYPE_4, "5": TYPE_5, "6": TYPE_6}
RIGHT_JUSTIFIED = {*"TLID FRADDL TOADDL FRADDR TOADDR RTSQ FEAT FEAT1 FEAT2 FEAT3 FEAT4 FEAT5".split()}
NAME_FIELDS = ("FEDIRP", "FENAME", "FETYPE", "FEDIRS")

STREETS = (
    "Alder, Barley, Cannery, Dogwood, Elmwood, Foundry, Gristmill, Hawthorn, Ironside, Juniper, Kestrel, Lantern, "
    "Main, Northgate, Old Ferry, Persimmon, Quarry, Redbud, Sycamore, Tanyard, Upper Bench, Vineyard, Willow Bend, "
    "Yarrow"
).split(", ")
STREET_TYPES = "St, St, St, Ave, Ave, Rd, Dr, Ln, Blvd".split(", ")
TRAILS = "Bear Hollow, Cutover, Fire Tower, Turpentine".split(", ")
WATERS = "Amber, Beaver Dam, Cane, Little Otter, Mossy, Otter, Panther, Silver Run, Turkey".split(", ")
LANDMARKS = [
    ("Pine Rest", "Cem", "D82"),
    ("Heron Point", "Park", "D85"),
    ("County Fairgrounds", "", "D64"),
    ("Ridge", "Sch", "D43"),
]
BOUNDARIES = ["F10", "F10", "F11", "F12", "F40", "F50", "F74"]
COUNTY_SUBDIVISIONS = ["90101", "90202", "90303"]
TOWN = "50505"
# Names of a highway in addition to its number, along parts of it.
HIGHWAY_NAMES = [
    ("State Route 6", ""),
    ("Main", "St"),
    ("Founders", "Pkwy"),
    ("Old Ferry", "Pike"),
    ("Cannery", "Ave"),
    ("Truck Route 480", ""),
    ("Veterans Memorial", "Hwy"),
    ("Gristmill", "Rd"),
]


class Dice:
    """Draws numbers by a linear congruential generator of 64 bits."""

    def __init__(self, seed: int) -> None:
        self.state = seed

    def below(self, bound: int) -> int:
        self.state = (self.state * 6364136223846793005 + 1442695040888963407) % 2**64
        return (self.state >> 33) % bound

    def between(self, low: int, high: int) -> int:
        return low + self.below(high - low + 1)

    def one_of(self, choices: Sequence[Choice]) -> Choice:
        return choices[self.below(len(choices))]

    def once_in(self, times: int) -> bool:
        return self.below(times) == 0

    def shuffle(self, items: list[Choice]) -> None:
        for last in range(len(items) - 1, 0, -1):
            other = self.below(last + 1)
            items[last], items[other] = items[other], items[last]


def record(fields: Fields) -> bytes:
    """Returns the bytes of a line: the fields at their places, and blanks elsewhere."""
    line = bytearray(b" " * LENGTHS[fields["RT"]])
    for name, text in fields.items():
        first, last = LAYOUTS[fields["RT"]][name]
        width = last - first + 1
        assert len(text) <= width, (name, text)
        text = text.rjust(width) if name in RIGHT_JUSTIFIED else text.ljust(width)
        line[first - 1 : last] = text.encode("ascii")
    return bytes(line)


def road_feature(dice: Dice) -> tuple[Fields, bool]:
    """Draws the name, type, direction and class of a road, and whether it has addresses."""
    kind = dice.below(100)
    if kind < 5:
        return {"FENAME": "I-99", "CFCC": dice.one_of(["A11", "A15"])}, False
    if kind < 12:
        return {"FENAME": "US Hwy 480", "CFCC": "A21"}, True
    if kind < 22:
        number = dice.between(2, 98)
        return {"FENAME": f"County Road {number}", "CFCC": "A31"}, True
    if kind < 74:
        return street_feature(dice, "A41", dice.one_of(STREET_TYPES)), True
    if kind < 82:
        return {"FENAME": dice.one_of(TRAILS), "FETYPE": "Trl", "CFCC": "A51"}, False
    if kind < 89:
        return street_feature(dice, "A61", "Ct"), True
    if kind < 93:
        return {"CFCC": "A63"}, False
    if kind < 95:
        return {"CFCC": "A71"}, False
    if kind < 97:
        return {"CFCC": "A73"}, False
    return {"FENAME": dice.one_of(STREETS), "FETYPE": "Dr", "CFCC": "A74"}, False


def street_feature(dice: Dice, feature_class: str, feature_type: str) -> Fields:
    feature = {"FENAME": dice.one_of(STREETS), "FETYPE": feature_type, "CFCC": feature_class}
    if dice.once_in(5):
        feature["FEDIRP"] = dice.one_of(["N", "S", "E", "W"])
    elif dice.once_in(12):
        feature["FEDIRS"] = dice.one_of(["N", "S", "NE", "SW"])
    return feature


def railroad_feature(dice: Dice) -> tuple[Fields, bool]:
    return {"FENAME": "Bench Valley", "FETYPE": "Rlwy", "CFCC": "B11"}, False


def water_feature(dice: Dice) -> tuple[Fields, bool]:
    if dice.once_in(4):
        return {"FENAME": dice.one_of(WATERS), "FETYPE": "Lake", "CFCC": "H01"}, False
    feature_type = dice.one_of(["Cr", "Br"])
    return {"FENAME": dice.one_of(WATERS), "FETYPE": feature_type, "CFCC": dice.one_of(["H11", "H11", "H12"])}, False


def landmark_feature(dice: Dice) -> tuple[Fields, bool]:
    name, feature_type, feature_class = dice.one_of(LANDMARKS)
    return {"FENAME": name, "FETYPE": feature_type, "CFCC": feature_class}, False


def boundary_feature(dice: Dice) -> tuple[Fields, bool]:
    return {"CFCC": dice.one_of(BOUNDARIES)}, False


def addresses(dice: Dice, block: int, falling: bool, has_left: bool, has_right: bool, zips: tuple[str, str]) -> Fields:
    """Returns the house numbers of a block: odd ones on the left, even ones on the right."""
    highest = 99 if not dice.once_in(6) else dice.between(5, 48) * 2 - 1
    fields: Fields = {}
    for side, present, low, high, zip_code in (
        ("L", has_left, block + 1, block + highest, zips[0]),
        ("R", has_right, block, block + highest - 1, zips[1]),
    ):
        if not present:
            continue
        ends = (high, low) if falling else (low, high)
        fields["FRADD" + side], fields["TOADD" + side] = map(str, ends)
        fields["FRIADD" + side] = "1" if dice.once_in(8) else "0"
        fields["TOIADD" + side] = "1" if dice.once_in(8) else "0"
        fields["ZIP" + side] = zip_code
    return fields


def areas(dice: Dice, apart: bool) -> Fields:
    """Returns the areas on both sides. With `apart` the sides differ in subdivision and tract."""
    subdivision = dice.below(len(COUNTY_SUBDIVISIONS))
    other = (subdivision + 1) % len(COUNTY_SUBDIVISIONS) if apart else subdivision
    tract = dice.between(1, 9)
    fields: Fields = {}
    for side, at, number in (("L", subdivision, tract), ("R", other, tract + (1 if apart else 0))):
        fields["STATE" + side] = "01"
        fields["COUNTY" + side] = "001"
        fields["COUSUB" + side] = COUNTY_SUBDIVISIONS[at]
        fields["PLACE" + side] = TOWN if at == 0 else ""
        fields["TRACT" + side] = f"{20000 + number * 100:06d}"
    return fields


def chain(dice: Dice, feature: Fields, has_addresses: bool, count: int) -> Chain:
    """Returns `count` segments of a feature, each starting at the end of the one before."""
    longitude = -dice.between(86450000, 86880000)
    latitude = dice.between(32320000, 32680000)
    east, north = dice.between(-1500, 1500), dice.between(-1200, 1200)
    block = dice.between(1, 60) * 100
    falling = dice.once_in(4)
    has_left = has_addresses and not dice.once_in(10)
    has_right = has_addresses and not dice.once_in(10)
    zips = dice.one_of([("36003", "36003"), ("36067", "36067"), ("36067", "36067"), ("36067", "36066")])
    fixed = {**feature, **areas(dice, feature["CFCC"][0] == "F")}
    source = dice.one_of("ABCJKLMN")
    segments: Chain = []
    for position in range(count):
        to_longitude = longitude + east + dice.between(-150, 150)
        to_latitude = latitude + north + dice.between(-150, 150)
        step = (count - 1 - position) if falling else position
        segments.append(
            {
                "RT": "1",
                "VERSION": "0006",
                "SOURCE": source,
                **fixed,
                **addresses(dice, block + step * 100, falling, has_left, has_right, zips),
                "BLOCKL": f"{dice.between(1000, 3099)}",
                "BLOCKR": f"{dice.between(1000, 3099)}",
                "FRLONG": f"{longitude:+010d}",
                "FRLAT": f"{latitude:+09d}",
                "TOLONG": f"{to_longitude:+010d}",
                "TOLAT": f"{to_latitude:+09d}",
            }
        )
        longitude, latitude = to_longitude, to_latitude
    return segments


def county(dice: Dice) -> list[Chain]:
    """Returns all segments, grouped by feature, with TLIDs that grow along the file."""
    chains: list[Chain] = []
    for feature_of, total, longest in (
        (road_feature, 240, 7),
        (railroad_feature, 16, 8),
        (water_feature, 76, 6),
        (landmark_feature, 12, 3),
        (boundary_feature, 56, 4),
    ):
        left = total
        while left > 0:
            count = min(left, dice.between(1, longest))
            chains.append(chain(dice, *feature_of(dice), count))
            left -= count
    dice.shuffle(chains)
    tlid = 107000000
    for segment in (segment for segments in chains for segment in segments):
        tlid += dice.between(1, 9)
        segment["TLID"] = str(tlid)
    return chains


def named(name: str, feature_type: str = "", direction: str = "") -> Fields:
    return {"FENAME": name, "FETYPE": feature_type, "FEDIRP": direction}


def alternate_names(dice: Dice, segment: Fields) -> list[Fields]:
    """Returns the alternate names of a chain; mostly none."""
    feature_class = segment["CFCC"]
    if feature_class in ("A11", "A15"):
        return [named("Purple Martin Memorial", "Hwy")]
    if feature_class == "A21":
        return [named(*name) for name in HIGHWAY_NAMES if not dice.once_in(3)]
    if feature_class == "A31":
        return [] if dice.once_in(3) else [named(dice.one_of(STREETS), "Rd")]
    if feature_class in ("A41", "A61") and dice.once_in(4):
        return street_names(dice, segment)
    if feature_class == "A51" and dice.once_in(3):
        return [named(f"Forest Road {dice.between(101, 140)}")]
    if feature_class == "B11":
        return [named("Bench Valley", "Line"), named("Upper Bench", "Spur")]
    if feature_class[0] == "H" and dice.once_in(6):
        return [named("Little " + dice.one_of(TRAILS), segment["FETYPE"])]
    return []


def street_names(dice: Dice, segment: Fields) -> list[Fields]:
    """Returns a street's former name, its number as a county road, or both."""
    name = segment["FENAME"]
    former = named(name[4:] if name.startswith("Old ") else "Old " + name, segment["FETYPE"], segment.get("FEDIRP", ""))
    numbered = named(f"County Road {dice.between(2, 98)}")
    return dice.one_of([[former], [numbered], [former, numbered]])


def further_ranges(dice: Dice, segment: Fields) -> list[Fields]:
    """Returns a segment's house numbers outside of its own range; mostly none."""
    has_left, has_right = "FRADDL" in segment, "FRADDR" in segment
    if not (has_left or has_right) or not dice.once_in(8):
        return []
    zips = (segment.get("ZIPL", ""), segment.get("ZIPR", ""))
    other_zips = ("36066", "36066") if dice.once_in(4) else zips
    return [
        addresses(dice, dice.between(1, 60) * 100, dice.once_in(4), has_left, has_right, other_zips)
        for _ in range(dice.one_of([1, 1, 1, 2, 3]))
    ]


def name_of(fields: Fields) -> tuple[str, ...]:
    return tuple(fields.get(field, "") for field in NAME_FIELDS)


def joined(dice: Dice, chains: Iterable[Chain]) -> tuple[list[Fields], list[Fields], list[Fields]]:
    """Returns the fields of type 4, 5 and 6 lines. Type 5 has each name of the county once."""
    feats: dict[tuple[str, ...], int] = {}
    type_4: list[Fields] = []
    type_6: list[Fields] = []

    def feat_of(fields: Fields) -> str:
        name = name_of(fields)
        if name not in feats:
            feats[name] = max(feats.values(), default=0) + dice.between(1, 5)
        return str(feats[name])

    for segments in chains:
        if "FENAME" in segments[0]:
            feat_of(segments[0])
        names = [feat_of(name) for name in alternate_names(dice, segments[0])]
        for segment in segments:
            for at in range(0, len(names), 5):
                numbers = {f"FEAT{which}": feat for which, feat in enumerate(names[at : at + 5], start=1)}
                type_4.append(
                    {"RT": "4", "VERSION": "0006", "TLID": segment["TLID"], "RTSQ": str(at // 5 + 1), **numbers}
                )
            for number, fields in enumerate(further_ranges(dice, segment), start=1):
                type_6.append({"RT": "6", "VERSION": "0006", "TLID": segment["TLID"], "RTSQ": str(number), **fields})
    type_5 = [
        {"RT": "5", "VERSION": "0006", "FILE": CODE, "FEAT": str(feat), **dict(zip(NAME_FIELDS, name))}
        for name, feat in feats.items()
    ]
    return type_4, type_5, type_6


def files_of(lines_of_types: Iterable[Sequence[Fields]]) -> dict[str, bytes]:
    """Returns the files of a county by their names, from the lines of each of its types."""
    return {
        f"TGR{CODE}.RT{lines[0]['RT']}": b"".join(record(fields) + LINE_END for fields in lines)
        for lines in lines_of_types
    }


def write(folder: Path, lines_of_types: Iterable[Sequence[Fields]]) -> None:
    folder.mkdir(exist_ok=True)
    for name, content in files_of(lines_of_types).items():
        (folder / name).write_bytes(content)


def one_of_them(
    segments: list[Fields], type_4: list[Fields], type_5: list[Fields], type_6: list[Fields]
) -> tuple[list[Fields], ...]:
    """Returns the lines of a single segment."""
    tlid = segments[ONE - 1]["TLID"]
    names = [fields for fields in type_4 if fields["TLID"] == tlid]
    feats = {text for fields in names for field, text in fields.items() if field[:4] == "FEAT"}
    return (
        [segments[ONE - 1]],
        names,
        [fields for fields in type_5 if fields["FEAT"] in feats],
        [fields for fields in type_6 if fields["TLID"] == tlid],
    )


def examples() -> dict[str, bytes]:
    """Returns the files of the examples by their paths."""
    chains = county(Dice(SEED))
    segments = [segment for chain_segments in chains for segment in chain_segments]
    lines = (segments, *joined(Dice(JOINED_SEED), chains))
    one = files_of(one_of_them(*lines))
    return {**files_of(lines), **{f"one/{name}": content for name, content in one.items()}}


def main() -> None:
    parser = argparse.ArgumentParser(description=__doc__, formatter_class=argparse.RawDescriptionHelpFormatter)
    add = parser.add_argument
    add("folder", nargs="?", type=Path, default=TOP / "examples", help="where the files go (default: examples)")
    folder: Path = parser.parse_args().folder
    for path, content in examples().items():
        (folder / path).parent.mkdir(exist_ok=True)
        (folder / path).write_bytes(content)


if __name__ == "__main__":
    main()
