"""Critical sections."""
from . import _rezunkai


class section:
    """with section(a) as s: .. or with section(a, b) as s: .. is a critical section on one container or two (PEP 703): until
    it ends no other thread writes to them, unless a call of this thread waits, which lets the locks go. Sections nest, to 16 in a
    thread. Afterwards `s.waits` is how many calls in it waited, and `s.kept` whether none did."""

    def __init__(self, first, second=None):
        self._boxes = (first,) if second is None else (first, second)
        self.waits = None

    @property
    def kept(self):
        return None if self.waits is None else self.waits == 0

    def __enter__(self):
        _rezunkai.begin(*self._boxes)
        return self

    def __exit__(self, *_):
        self.waits = _rezunkai.end()
