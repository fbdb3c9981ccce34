"""numpy, where it is there and there is enough to do for it."""

from __future__ import annotations

import functools
import importlib
from typing import Any

# So many bytes are worth the time that it takes to load numpy.
MANY_BYTES = 1 << 17


@functools.cache
def _library() -> Any:
    try:
        return importlib.import_module("numpy")
    except ImportError:
        return None


def numpy(data: bytes | bytearray) -> Any:
    """The module numpy, or None where it is not there, or the data are few."""
    return _library() if len(data) >= MANY_BYTES else None
