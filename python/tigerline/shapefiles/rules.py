"""What becomes of each column of the Census Bureau's shapefiles (docs/shapefiles.md)."""

from enum import StrEnum
from typing import Annotated, NamedTuple, TypeVar


class Kind(StrEnum):
    """A kind of file, as the files' names have it."""

    EDGES = "edges"
    FEATNAMES = "featnames"
    ADDR = "addr"
    FACES = "faces"
    PLACE = "place"
    COUSUB = "cousub"
    COUNTY = "county"


class Edge(NamedTuple):
    """A segment."""

    GEOMETRY: Annotated[str, "FRLONG to TOLAT and record type 2"]
    STATEFP: Annotated[str, "the county"]
    COUNTYFP: Annotated[str, "the county"]
    TLID: Annotated[str, "same"]
    TFIDL: Annotated[str, "TFID of faces"]
    TFIDR: Annotated[str, "TFID of faces"]
    MTFCC: Annotated[str, "CFCC"]
    FULLNAME: Annotated[str, "FENAME without featnames"]
    LFROMADD: Annotated[str, "the range without addr"]
    LTOADD: Annotated[str, "the range without addr"]
    RFROMADD: Annotated[str, "the range without addr"]
    RTOADD: Annotated[str, "the range without addr"]
    ZIPL: Annotated[str, "same"]
    ZIPR: Annotated[str, "same"]


class FeatureName(NamedTuple):
    """A name of a segment."""

    TLID: Annotated[str, "same"]
    FULLNAME: Annotated[str, "FENAME without NAME"]
    PREDIRABRV: Annotated[str, "FEDIRP"]
    PREQUALABR: Annotated[str, "FENAME"]
    PRETYPABRV: Annotated[str, "FENAME"]
    NAME: Annotated[str, "FENAME"]
    SUFQUALABR: Annotated[str, "FENAME"]
    SUFTYPABRV: Annotated[str, "FETYPE"]
    SUFDIRABRV: Annotated[str, "FEDIRS"]
    PAFLAG: Annotated[str, "P for type 1, A for types 4 and 5"]


class AddressRange(NamedTuple):
    """A range of house numbers of a segment's side: the first one is in record type 1, the others are in type 6."""

    TLID: Annotated[str, "same"]
    FROMHN: Annotated[str, "FRADD"]
    TOHN: Annotated[str, "TOADD"]
    SIDE: Annotated[str, "L or R at the end"]
    ZIP: Annotated[str, "ZIP without edges"]
    FROMTYP: Annotated[str, "FRIADD, I for 1"]
    TOTYP: Annotated[str, "TOIADD, I for 1"]


class Face(NamedTuple):
    """An area."""

    TFID: Annotated[str, "TFIDL or TFIDR of edges"]
    STATEFP: Annotated[str, "STATE to BLOCK"]
    COUNTYFP: Annotated[str, "STATE to BLOCK"]
    COUSUBFP: Annotated[str, "STATE to BLOCK"]
    PLACEFP: Annotated[str, "STATE to BLOCK"]
    TRACTCE: Annotated[str, "STATE to BLOCK"]
    BLOCKCE: Annotated[str, "STATE to BLOCK"]


class PlaceName(NamedTuple):
    """The name of a place, for record type C."""

    STATEFP: Annotated[str, "the state"]
    PLACEFP: Annotated[str, "FIPS"]
    NAME: Annotated[str, "same"]


class SubdivisionName(NamedTuple):
    """The name of a county subdivision, for record type C."""

    STATEFP: Annotated[str, "the state"]
    COUNTYFP: Annotated[str, "the county"]
    COUSUBFP: Annotated[str, "FIPS"]
    NAME: Annotated[str, "same"]


class CountyName(NamedTuple):
    """The name of a county, for record type C."""

    STATEFP: Annotated[str, "the state"]
    COUNTYFP: Annotated[str, "FIPS after 99"]
    NAME: Annotated[str, "same"]


AnyRow = TypeVar("AnyRow", Edge, FeatureName, AddressRange, Face, PlaceName, SubdivisionName, CountyName)
# The rows that belong to a segment.
AnyOwned = TypeVar("AnyOwned", FeatureName, AddressRange)

ROWS = {
    Kind.EDGES: Edge,
    Kind.FEATNAMES: FeatureName,
    Kind.ADDR: AddressRange,
    Kind.FACES: Face,
    Kind.PLACE: PlaceName,
    Kind.COUSUB: SubdivisionName,
    Kind.COUNTY: CountyName,
}
# What a county lacks without a kind of file.
COSTS = {
    Kind.FEATNAMES: "no alternate names, and names aren't split into their parts",
    Kind.ADDR: "one address range a side",
    Kind.FACES: "no cities, tracts or blocks",
    Kind.PLACE: "no names of cities",
    Kind.COUSUB: "no names of county subdivisions",
}
# In many years columns end with that of a census. Tracts and blocks are those of the latest census, all else is as of the year.
GEOMETRY = "GEOMETRY"  # the shape, which GDAL has in front of the columns
CENSUSES = ("20", "10", "00")
OF_CENSUS = {"TRACTCE", "BLOCKCE"}

# CFCC by MTFCC. The Bureau's table has several CFCC for most; this is the most general one.
CLASSES = dict(
    pair.split()
    for pair in (
        "S1100 A11, S1200 A31, S1400 A41, S1500 A51, S1630 A63, S1640 A64, S1710 A71, S1720 A72, S1730 A73, S1740 A74, "
        "S1750 A74, S1780 A74, S1810 A71, S1820 A71, S1830 A71, S2000 A21, R1011 B11, R1051 B31, R1052 B32, H3010 H11, "
        "H3013 H11, H3020 H21, L4010 C10, L4020 C20, L4031 C30, L4110 E10, L4121 E21, L4125 E22, L4130 F00, L4140 F00, "
        "L4150 H01, L4165 A65, P0001 F00, P0002 H01, P0003 H02, P0004 F00"
    ).split(", ")
)
UNKNOWN_CLASS = "X00"
SECONDARY_ROAD, US_ROAD = "S1200", "A21"


def class_of(mtfcc: str, name: str) -> str:
    """Returns the CFCC of a segment: of a secondary road that of a US highway if its name begins with US."""
    if mtfcc == SECONDARY_ROAD and name[:3].upper() == "US ":
        return US_ROAD
    return CLASSES.get(mtfcc, UNKNOWN_CLASS)
