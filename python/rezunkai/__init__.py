"""dict, list and set that many threads share, by the library Rezunkai. docs/LIBRARY.md is the manual.

Keys are int of 64 bits and str, values those and None; anything else raises TypeError. With open(objects=True) any object
goes: keys by their equality, values by identity; each is kept for good."""
from ._rezunkai import open as _open
from .dicts import dict
from .lists import list
from .recording import Record, record
from .sections import section
from .sets import set

__all__ = ["Record", "dict", "list", "open", "record", "section", "set"]


def open(*, dicts=112, lists=72, sets=72, threads=64, tables=None, heap=4096, objects=False):
    """Opens the engine with so many containers of each kind, at most 256 in all, for so many threads, at most 64. `tables`
    are 14 counts, 1 to 1,024, of tables of 8, 16, .. 65,536 slots; `heap` is how many ints outside -5..256 and strs of one
    thread dicts and lists may have as values, 64 to 4,096 in steps of 64. Without it the first container opens the engine. Raises
    RuntimeError where it is open, ValueError where the sizes don't keep the limits."""
    _open(dicts, lists, sets, threads, tables, heap, objects)
