"""Made-up counties of several towns, each drawn by tools/make_town.py, with the names of their cities in record type C.

Towns in the same place of two counties have the same streets, but other names and ZIP Codes.
"""

import importlib
import sys
from collections.abc import Iterator
from contextlib import contextmanager
from pathlib import Path
from random import Random
from typing import Any, NamedTuple

from counties import TOOLS

CITIES = (
    "Milford Ashby Brent Centre Dunmore Easton Fulmer Gilby Harlan Ironton Jasper Kelso Lowry Mayhew Norwood Orrville Pinson "
    "Quitman Ridley Selby"
).split()
SECOND_CITIES = [f"New {city}" for city in CITIES]
STREETS = (
    "Abbott Adler Alamo Albany Alder Amber Amherst Anchor Andover Antler Apache Arbor Argyle Armory Arrow Ashford Aspen "
    "Auburn Aurora Autumn Azalea Badger Balsam Banner Barclay Barton Bayou Beacon Bedford Beech Belmont Benton Berkshire "
    "Birch Bishop Bluff Bolton Bonita Boulder Boyd Bradley Bramble Brandon Brighton Bristol Bronson Buckeye Burgess Cactus "
    "Calhoun Calvert Camden Canary Canyon Capitol Carlton Carver Cascade Castle Cayuga Cedar Chandler Chapman Cherokee "
    "Chester Cheyenne Cinder Citrus Clayton Cleveland Clifton Clover Cobalt Colby Colfax Colonial Comet Concord Condor "
    "Copper Coral Cordova Corral Cottage Cougar Coventry Cowan Crawford Crescent Crimson Crystal Curtis Custer Cypress "
    "Dahlia Dakota Dalton Dayton Decatur Deerfield Delmar Denton Derby Diamond Dixon Dover Drake Driftwood Dundee Durham "
    "Eagle Eastman Echo Edgemont Eldridge Elkhorn Ellis Elmwood Emerald Emerson Euclid Everett Ewing Fairfax Fargo Farragut "
    "Fenton Fillmore Finch Fisher Flint Floral Forbes Forest Foxglove Frazier Freedom Fremont Frontier Fulton Galaxy Garfield "
    "Garland Gaston Geneva Gibson Gilmore Glacier Glenwood Golden Goodwin Gotham Graham Granite Grayson Grove Gulch Hadley "
    "Hamilton Hampton Hanover Harbor Harding Harmony Harvest Hawthorn Hayward Heather Hemlock Heritage Hermit Hobart Hogan "
    "Holland Homer Hoover Horizon Hubbard Hudson Humboldt Huron Imperial Indigo Ingram Iroquois Irving Island Ivory Jamison "
    "Jarvis Jericho Jordan Jubilee Juneau Kendall Kenton Keystone Kimball Kipling Klamath Knoll Kodiak Lafayette Lagoon "
    "Lancaster Langley Lansing Laramie Lantern Larkspur Lawson Legion Lenox Leyden Liberty Linden Livingston Logan Lombard "
    "Lowell Lucerne Luther Lyndon Macon Madrid Mallard Malvern Manor Marble Mariner Marlow Marquis Mayfair Meadow Medford "
    "Melrose Mercer Meridian Merrill Mesquite Midland Milton Mimosa Minden Mohawk Monarch Mosaic Mulberry Murdock Mustang "
    "Nantucket Navajo Newton Nichols Norfolk Nutmeg Oakdale Oberlin Ocean Ogden Olympic Onyx Oregon Orion Osage Otter Owens "
    "Oxford Palmer Palomar Panama Paxton Pebble Pelican Pemberton Pepper Perkins Pheasant Phoenix Pierce Pilgrim Pioneer "
    "Plymouth Pontiac Portland Prairie Preston Primrose Princeton Pueblo Putnam Quarry Quartz Quincy Radcliff Rainbow Raleigh "
    "Rampart Randall Raven Redwood Regent Revere Richmond Ripley Rockport Roslyn Rutland Saddle Salem Sandal Saratoga "
    "Savannah Saxon Scarlet Seneca Sequoia Shadow Shannon Sheffield Shelby Sherwood Sierra Silver Sparrow Spencer Sterling "
    "Stockton Stratford Sumner Sutton Tahoe Talbot Tamarack Tanager Teton Thistle Thornton Tiffany Topaz Trenton Trinity "
    "Tucson Tulip Tyler Ulster Umber Utah Valencia Vandalia Venice Vernon Victory Violet Vulcan Wabash Wadsworth Walden "
    "Warwick Waverly Webster Wellesley Wexford Wheaton Whitney Wichita Willard Winslow Wisteria Woodbury Wyandot Yarmouth "
    "Yellowstone Yorktown Yukon Zenith Zinnia"
).split()


class Town(NamedTuple):
    """A town of a county: its city, the codes of its place and county subdivision, and its three ZIP Codes."""

    city: str
    place: str
    subdivision: str
    zips: tuple[str, str, str]


@contextmanager
def loaded() -> Iterator[Any]:
    """Loads a copy of tools/make_town.py whose constants may be replaced."""
    sys.path.insert(0, str(TOOLS))
    kept = sys.modules.pop("make_town", None)
    try:
        yield importlib.import_module("make_town")
    finally:
        sys.path.remove(str(TOOLS))
        sys.modules.pop("make_town", None)
        if kept:
            sys.modules["make_town"] = kept


def write_county(
    folder: Path, code: str = "01007", count: int = 20, cities: list[str] = CITIES, first_zip: int = 35100
) -> list[Town]:
    """Writes a county of towns that lie in five columns, and returns its towns.

    No town has a street of the same name as one of the three towns beside it, apart from numbered ones.
    """
    folder.mkdir(parents=True, exist_ok=True)
    towns = [
        Town(
            cities[at],
            f"{13264 + at:05}",
            f"{90315 + at:05}",
            (f"{first_zip + 3 * at}", f"{first_zip + 3 * at + 1}", f"{first_zip + 3 * at + 2}"),
        )
        for at in range(count)
    ]
    types: dict[str, list[bytes]] = {number: [] for number in "12456"}
    with loaded() as maker:
        numbers: dict[object, int] = {}
        for at, town in enumerate(towns):
            for number, lines in draw_town(maker, Random(f"{code} {at // 4}"), at, town, numbers, code).items():
                types[number] = lines if number == "5" else types[number] + lines
    for number, lines in types.items():
        (folder / f"TGR{code}.RT{number}").write_bytes(b"".join(line + b"\r\n" for line in lines))
    write_cities(
        folder / f"TGR{code}.RTC",
        code,
        [(one.place, "P", one.city) for one in towns] + [(one.subdivision, "M", one.city) for one in towns],
    )
    return towns


def write_cities(path: Path, code: str, names: list[tuple[str, str, str]]) -> None:
    """Writes a file of record type C with the code, the kind and the name of each entity."""
    lines = [f"C0006{code}2006{fips:5}{'':5}{kind}{'':37}{name:60}\r\n" for fips, kind, name in names]
    path.write_bytes("".join(lines).encode("latin-1"))


def draw_town(
    maker: Any, random: Random, at: int, town: Town, numbers: dict[object, int], code: str
) -> dict[str, list[bytes]]:
    """Draws a town with streets, a place and ZIP Codes of its own."""
    pool = random.sample(STREETS, len(STREETS))
    quarter = len(pool) // 4
    pool = pool[at % 4 * quarter :][:quarter]
    original = maker.area_fields, maker.house_numbers, maker.Names.__init__

    def names(count: int) -> tuple[str, ...]:
        pool[:] = pool[count:] + pool[:count]
        return tuple(pool[-count:])

    maker.NORTH_STREETS, maker.WEST_AVENUES, maker.EAST_AVENUES = names(8), names(11), names(11)
    maker.FARM_ROADS = names(56)
    maker.COURTS = tuple(f"{name} {random.choice(('Run', 'Glen', 'View', 'Hollow'))}" for name in names(52))
    maker.WEST, maker.SOUTH = -87_400_000 + at % 5 * 95_000, 32_600_000 + at // 5 * 58_000
    maker.FIRST_TLID = 207_000_000 + at * 100_000
    maker.zip_code = lambda point: town.zips[
        2 if point[0] > maker.INTERSTATE[18][0] else 0 if point[1] > maker.height_at(maker.HIGHWAY_31, point[0]) else 1
    ]

    def area_fields(county: str, side: str, point: tuple[int, int]) -> dict[str, str]:
        fields = original[0](county, side, point)
        own = {f"PLACE{side}": town.place if fields.get(f"PLACE{side}") else "", f"COUSUB{side}": town.subdivision}
        return {**fields, **own} if fields else {}

    def house_numbers(segment: object, dice: object) -> object:
        own, further = original[1](segment, dice)
        for fields in further:
            fields.update(
                {name: town.zips[text == "35034"] for name, text in fields.items() if text in ("35034", "35042")}
            )
        return own, further

    def start(self: Any, dice: object) -> None:
        self.dice, self.numbers = dice, numbers

    maker.area_fields, maker.house_numbers, maker.Names.__init__ = area_fields, house_numbers, start
    drawn: dict[str, list[bytes]] = maker.county(2006 + at, code)
    maker.area_fields, maker.house_numbers, maker.Names.__init__ = original
    return drawn
