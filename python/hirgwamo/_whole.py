"""Whole numbers, which all calls are made of."""

from __future__ import annotations

from typing import Tuple

# Seconds and nanoseconds, of an instant or of a duration.
Pair = Tuple[int, int]


def whole_number(value: object, name: str) -> int:
    """An int; what is none, or is a bool, is a TypeError that tells the argument's name."""
    if isinstance(value, bool) or not isinstance(value, int):
        raise TypeError(f"{name} is of type {type(value).__name__}; give a whole number (int)")
    return value
