"""Words of command lines."""
import argparse
from typing import Callable


def number(least: float, most: float, kind: type = float) -> Callable[[str], float]:
    """A reader of numbers from `least` to `most`."""

    def read(word: str) -> float:
        value = kind(word)
        if not least <= value <= most:
            raise argparse.ArgumentTypeError(f"it is {word}; it must be from {least:.0f} to {most:.0f}")
        return value

    read.__name__ = "number"
    return read
