"""The log of a tool: lines on standard error with the wall clock and a level."""
import logging
import sys
import time

LEVELS = ("DEBUG", "INFO", "WARNING", "ERROR")
FORMAT = "%(asctime)s.%(msecs)03dZ %(levelname)s %(name)s: %(message)s"


def begin(level: str = "INFO") -> None:
    """Writes lines from that level on, each with its moment in UTC: `2026-12-01T14:05:06.789Z INFO gateway: ..`."""
    handler = logging.StreamHandler(sys.stderr)
    lines = logging.Formatter(FORMAT, "%Y-%m-%dT%H:%M:%S")
    lines.converter = time.gmtime
    handler.setFormatter(lines)
    logging.basicConfig(handlers=[handler], level=level, force=True)
