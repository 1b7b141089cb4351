"""Traces to be written again in another form: scaled, edited, or cut into days."""

from .trace import Trace

__all__ = ["Trace"]
