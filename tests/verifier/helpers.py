"""The helper functions: their arguments and results."""
from verifier.kinds import WORD, Kind, number

# None for a pointer into the frame.
Bounds = tuple[int, int] | None
ANY, LENGTH = (0, WORD - 1), (1, 30)
# The bounds of each argument, and the result.
HELPERS: dict[int, tuple[list[Bounds], Kind]] = {
    1: ([(0, 16)], number(0, 99999999999)),
    2: ([(0, 16)], number(0, 1)),
    3: ([], number(0, 5000)),
    4: ([], number(1, 1001)),
    5: ([ANY, ANY], number(0, 3)),
    6: ([ANY, None, LENGTH], number(0, 1)),
    7: ([ANY, None, LENGTH], number(0, 1)),
    8: ([ANY], number(0)),
    9: ([(0, 3)], number(0, WORD - 1)),
}
NAME_COPY, NAME_IS = 6, 7
