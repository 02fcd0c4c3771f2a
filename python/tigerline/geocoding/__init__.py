"""Addresses to positions and back: what `tigerline geocode` and `tigerline reverse` do."""

from .address_input import Address
from .addresses import Reason
from .geocoder import geocode
from .match import Candidate, Match, Status
from .reversing import Nearest, reverse

__all__ = ["Address", "Candidate", "Match", "Nearest", "Reason", "Status", "geocode", "reverse"]
