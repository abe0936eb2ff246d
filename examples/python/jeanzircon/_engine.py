"""Chooses the way to the library: the module in C, where it was built of this version, and else ctypes. Where JEANZIRCON_LIBRARY names a
shared object, this one is called, by ctypes."""
import os

from ._base import NUMBER, Engine


def chosen() -> Engine:
    if not os.environ.get("JEANZIRCON_LIBRARY"):
        try:
            from . import _c
            if _c.version() == NUMBER:
                return _c
        except ImportError:
            pass
    from . import _ctypes
    return _ctypes


ENGINE = chosen()
