"""The abbreviations of the fields FEDIRP, FETYPE and FEDIRS, and what people write for them."""

import re
from collections.abc import Iterable
from itertools import permutations, product

from ..sources import STATE_NAMES

_SIDES = {"N": ("N", "NORTH"), "S": ("S", "SOUTH"), "E": ("E", "EAST"), "W": ("W", "WEST")}
_CORNERS = {
    one + other: (one + other, _SIDES[one][1] + _SIDES[other][1], *map(" ".join, product(_SIDES[one], _SIDES[other])))
    for one, other in product("NS", "EW")
}
# What may be written for a direction, in capitals: N, NORTH, NE, NORTHEAST, N E, NORTH EAST ...
DIRECTIONS = {written: direction for direction, words in (_SIDES | _CORNERS).items() for written in words}

_TYPES = """
    Aly Alley Allee Ally | Arc Arcade | Ave Avenue Av Aven Avenu Avn | Bch Beach | Blf Bluff | Blvd Boulevard Boul Bvd
    Bnd Bend | Br Branch Brnch | Brg Bridge Brdge | Byp Bypass Bypa | Cir Circle Circ Crcl | Clf Cliff | Cmn Common
    Cor Corner | Cors Corners | Cr Creek Crk | Cres Crescent Crs | Cswy Causeway | Ct Court Crt | Ctr Center Centre Cntr
    Cts Courts | Curv Curve | Cv Cove | Cyn Canyon | Dr Drive Driv Drv | Est Estate | Ests Estates
    Expy Expressway Expwy Exp | Ext Extension Extn | Fld Field | Flds Fields | Frst Forest | Fry Ferry
    Fwy Freeway Frwy | Gdn Garden | Gdns Gardens | Gln Glen | Grn Green | Grv Grove | Gtwy Gateway | Hbr Harbor
    Hl Hill | Hls Hills | Holw Hollow | Hts Heights | Hvn Haven | Hwy Highway Hiway | Inlt Inlet | Is Island Isle
    Jct Junction | Knl Knoll | Knls Knolls | Lk Lake | Ln Lane | Lndg Landing | Loop Lp | Mall | Mdw Meadow
    Mdws Meadows | Ml Mill | Mls Mills | Mnr Manor | Mt Mount | Mtn Mountain | Orch Orchard | Oval | Park Prk | Pass
    Path | Pike | Pkwy Parkway Pky Pkwys Pwy | Pl Place | Pln Plain | Plns Plains | Plz Plaza | Pr Prairie | Pt Point
    Rd Road | Rdg Ridge | Rmp Ramp | Row | Rte Route | Run | Shr Shore | Shrs Shores | Skwy Skyway | Smt Summit
    Spg Spring | Spgs Springs | Spur | Sq Square | St Street Str Strt | Sta Station | Ter Terrace Terr
    Thwy Throughway Thruway Trwy | Tpke Turnpike Tpk | Trce Trace | Trk Track | Trl Trail Trails | Tunl Tunnel
    Un Union | Vis Vista | Vlg Village | Vly Valley | Vw View | Walk | Way Wy | Wls Wells | Xing Crossing | Xrd Crossroad
"""
# Spellings of street types in capitals, and their FETYPE.
TYPES = {
    word.upper(): words.split()[0]
    for line in _TYPES.splitlines()
    for words in line.split("|")
    for word in words.split()
}

_UNITS = "APARTMENT APT BLDG BOX BUILDING DEPT DEPARTMENT FL FLOOR HANGAR HNGR LOT RM ROOM SLIP SPACE SPC STE SUITE"
# Words before the number of a unit, and words that are a unit by themselves.
UNITS = frozenset(f"{_UNITS} TRAILER TRLR UNIT".split())
PARTS_OF_HOUSES = frozenset("BASEMENT BSMT FRNT FRONT LOWER LOWR PENTHOUSE PH REAR UPPER UPPR".split())

_COUNTY_ROAD = ("County Road {}", "County Rd {}", "Co Road {}", "Co Rd {}", "CR {}")
_COUNTY_ROUTE = ("County Route {}", "County Rte {}", "Co Route {}", "Co Rte {}")
_COUNTY_HIGHWAY = ("County Highway {}", "County Hwy {}", "Co Highway {}", "Co Hwy {}")
_STATE_ROAD = ("State Road {}", "State Rd {}", "St Rd {}", "SR {}")
_STATE_ROUTE = ("State Route {}", "State Rte {}", "St Rte {}", "SR {}")
_STATE_HIGHWAY = ("State Highway {}", "State Hwy {}", "St Hwy {}", "SH {}")
_US_HIGHWAY = ("US Hwy {}", "US Highway {}", "US Route {}", "US Rte {}", "U S Hwy {}", "U S Highway {}", "US {}")
_INTERSTATE = ("I-{}", "I- {}", "I {}", "Interstate {}", "Interstate Hwy {}", "Interstate Highway {}")
_FARM_ROAD = ("FM {}", "F M {}", "FM Road {}", "Farm to Market Road {}", "Farm-to-Market Road {}")

LETTERS = "ABCDEFGHIJKLMNOPQRSTUVWXYZ"
_HIGHWAYS = ("Highway {}", "Hwy {}", "Route {}")
_STATE_SYSTEM = _STATE_HIGHWAY + _STATE_ROUTE + _STATE_ROAD
_COUNTY_SYSTEM = _COUNTY_ROAD + _COUNTY_ROUTE + _COUNTY_HIGHWAY

_COUNTY, _STATE, _US = "(?:CO|CNTY|CTY|COUNTY)", "(?:ST|STATE)", "(?:US|U S|UNITED STATES)"
_ROAD, _ROUTE, _HIGHWAY = "(?:RD|ROAD)", "(?:RT|RTE|ROUTE)", "(?:HWY|HIGHWAY|HIWAY)"
# Spellings of numbered roads, names with the same meaning, and names of the same system with another word. Whether `Hwy 31`
# is a highway of the US, the state or the county isn't said.
_ROUTES = [
    (re.compile(rf"(?:{written})[ -]{{0,2}}([0-9]{{1,5}}[A-Z]?)"), same, other)
    for written, same, other in (
        (f"CR|C R|{_COUNTY} {_ROAD}", _COUNTY_ROAD, _COUNTY_ROUTE + _COUNTY_HIGHWAY),
        (f"{_COUNTY} {_ROUTE}", _COUNTY_ROUTE, _COUNTY_ROAD + _COUNTY_HIGHWAY),
        (f"CH|C H|{_COUNTY} {_HIGHWAY}", _COUNTY_HIGHWAY, _COUNTY_ROAD + _COUNTY_ROUTE),
        (f"{_COUNTY}|{_ROAD}", (), _COUNTY_SYSTEM),
        ("SR|S R", _STATE_ROUTE + _STATE_ROAD, _STATE_HIGHWAY),
        (f"{_STATE} {_ROUTE}", _STATE_ROUTE, _STATE_ROAD + _STATE_HIGHWAY),
        (f"{_STATE} {_ROAD}", _STATE_ROAD, _STATE_ROUTE + _STATE_HIGHWAY),
        (f"SH|S H|{_STATE} {_HIGHWAY}", _STATE_HIGHWAY, _STATE_ROUTE + _STATE_ROAD),
        (rf"{_US}(?:[ -]{_HIGHWAY}|[ -]{_ROUTE})?", _US_HIGHWAY, ()),
        (f"(?:I|INTERSTATE)(?: {_HIGHWAY})?", _INTERSTATE, ()),
        (f"(?:FM|F M)(?: {_ROAD})?|FARM[ -]TO[ -]MARKET {_ROAD}", _FARM_ROAD, ()),
        (f"{_HIGHWAY}|{_ROUTE}", _HIGHWAYS, _US_HIGHWAY + _STATE_SYSTEM + _COUNTY_SYSTEM),
    )
]
_OF_STATE = re.compile(
    rf"(?P<state>[A-Z]+(?: [A-Z]+)*?)(?:[ -](?:{_HIGHWAY}|{_ROUTE}|{_ROAD}))?[ -]{{1,2}}(?P<number>[0-9]{{1,5}}[A-Z]?)"
)


def route_names(name: str, state: str = "") -> tuple[list[str], list[str]]:
    """Returns the other names of a numbered road: those with the same meaning, and those with another word.

    `CR 46` means `County Road 46`; `County Highway 46` has another word. In Alabama, `AL 25` and `Alabama Highway 25` mean a
    road of the state. The name is in capitals, without dots. `state` is a postal abbreviation, or empty for any.
    """
    same: list[str] = []
    other: list[str] = []
    if not name[-2:].strip(LETTERS):
        return same, other  # Most names have no number at their end.
    found = _OF_STATE.fullmatch(name)
    if found and (written := STATE_NAMES.get(found["state"])) and state in ("", written):
        other += [text.format(found["number"]) for text in _STATE_SYSTEM]
    for pattern, meant, related in _ROUTES:
        if found := pattern.fullmatch(name):
            same += [text.format(found[1]) for text in meant]
            other += [text.format(found[1]) for text in related]
            break
    return same, list(dict.fromkeys(other))


# Words of names that are written in two ways, and forms of one name.
_PAIRS = """
    First 1st | Second 2nd | Third 3rd | Fourth 4th | Fifth 5th | Sixth 6th | Seventh 7th | Eighth 8th | Ninth 9th | Tenth 10th
    Eleventh 11th | Twelfth 12th | Mount Mt | Fort Ft | Saint St | Avenue Ave | Center Centre
"""
_OTHER_WORDS = {
    one.upper(): other
    for pair in re.split(r"[|\n]", _PAIRS)
    if pair.strip()
    for one, other in permutations(pair.split())
}
_KING = re.compile(r"(?:DR )?(?:MARTIN L(?:UTHER)?|M ?L) ?K(?:ING)?(?: J(?:UNIO)?R)?")
_KING_NAMES = (
    "Martin Luther King Jr", "Martin Luther King", "M L King Jr", "M L King", "MLK Jr", "MLK", "ML King Jr", "ML King",
    "Dr Martin Luther King Jr", "Dr Martin Luther King", "Dr M L King Jr", "Dr ML King Jr", "Martin L King Jr",
    "Martin L King",
)  # fmt: skip


def other_spellings(words: list[str]) -> list[str]:
    """Returns names with the same meaning: `First` for `1st`, `Mount` for `Mt`, without apostrophes, and so on."""
    name = " ".join(words)
    found = [name.replace("'", ""), name.replace("'", " ")] if "'" in name else []
    for at, word in enumerate(words):
        other = _OTHER_WORDS.get(word.upper())
        # Elsewhere, `St` and `Ave` are types.
        if other and (word.upper() not in ("ST", "SAINT", "AVE", "AVENUE") or (at == 0 and len(words) > 1)):
            found.append(" ".join((*words[:at], other, *words[at + 1 :])))
    if name[:1] in "DdMm" and _KING.fullmatch(name.replace(".", "").replace(",", "").upper()):
        found += _KING_NAMES
    return found


def word_key(word: str) -> str:
    """Returns a word in capitals, without dots and commas: `N.E.,` becomes `NE`."""
    return word.replace(".", "").strip(",;").upper()


def word_keys(words: Iterable[str]) -> list[str]:
    """Returns words in capitals, without dots and commas."""
    return [word_key(word) for word in words]


def same_type(one: str, other: str) -> bool:
    """Returns whether two street types are the same, however they are abbreviated."""
    return _type_of(one) == _type_of(other)


def _type_of(field: str) -> str:
    return TYPES.get(field.upper(), field.upper())
