"""Street segments over HTTP, as OGC API - Features 1.0: what `tigerline serve` does, and a WSGI application."""

from .application import Service, application
from .selections import Limits

__all__ = ["Limits", "Service", "application"]
