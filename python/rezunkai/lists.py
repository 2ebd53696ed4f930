"""The list: what the library has no call for is made of its calls."""
import builtins
import collections.abc
import reprlib

from . import _rezunkai
from .ops import (L_CLEAR, L_COUNT, L_EQ, L_EXTEND, L_HAS, L_INDEX, L_INSERT, L_ITEMS, L_REMOVE, L_REVERSE,
                  L_SLICE, X)
from .sections import section
from .walks import Backwards, Iterator, same


class list(_rezunkai.List):
    """A list of the engine. Calls, replies and exceptions are those of the built-in list."""

    __slots__ = ("__weakref__",)
    __hash__ = None

    def __reduce_ex__(self, protocol):
        return type(self), (), self.__getstate__(), iter(self._items())

    def __init__(self, items=(), /, **kwargs):
        if kwargs and type(self).__new__ is list.__new__:
            raise TypeError("list() takes no keyword arguments")
        self.clear()
        self.extend(items)

    __class_getitem__ = classmethod(type(builtins.list[int]))

    @staticmethod
    def _index(index):
        try:
            return index.__index__()
        except AttributeError:
            raise TypeError("list indices must be integers or slices") from None

    @staticmethod
    def _near(index):
        return max(min(index, 2**62), -2**62)

    def _items(self):
        return self.call(L_ITEMS)

    def _put(self, items):
        self.call(L_CLEAR)
        for item in items:
            self.append(item)

    def _slice(self, index):
        start, stop, step = index.indices(len(self))
        if step == 1:
            return self._of(self.call(L_SLICE, X, X, X, start, stop))
        return self._of(self._items()[index])

    @staticmethod
    def _of(items):
        made = list()
        for item in items:
            made.append(item)
        return made

    def _set_slice(self, index, value):
        new = [*value]
        with section(self):
            items = self._items()
            items[index] = new
            self._put(items)

    def _del_slice(self, index):
        with section(self):
            items = self._items()
            del items[index]
            self._put(items)

    def insert(self, index, value):
        self.call(L_INSERT, X, value, X, self._near(self._index(index)))

    def extend(self, other):
        if type(other) is list:
            self.call(L_EXTEND, X, X, other)
        else:
            for item in other:
                self.append(item)

    def clear(self):
        self.call(L_CLEAR)

    def reverse(self):
        self.call(L_REVERSE)

    def copy(self):
        return list._of(self._items())

    def _find(self, value, start=0):
        """The index of the first equal item from there on, by the equality of objects; None where there is none."""
        while start < len(self):
            item = self[start]
            if item is value or item == value:
                return start
            start += 1
        return None

    def remove(self, value, /):
        if not _rezunkai.keeps_objects():
            self.call(L_REMOVE, X, value)
            return
        found = self._find(value)
        if found is None:
            raise ValueError("list.remove(x): x not in list")
        del self[found]

    def index(self, value, start=0, stop=2**62, /):
        if not _rezunkai.keeps_objects() and start == 0 and stop == 2**62:
            return self.call(L_INDEX, X, value)
        n = len(self)
        start = max(start + n, 0) if start < 0 else start
        stop = max(stop + n, 0) if stop < 0 else stop
        found = self._find(value, start)
        if found is None or found >= stop:
            raise ValueError(f"{value!r} is not in list")
        return found

    def count(self, value, /):
        if not _rezunkai.keeps_objects():
            return self.call(L_COUNT, X, value)
        return sum(1 for item in self._items() if item is value or item == value)

    def __contains__(self, value):
        if not _rezunkai.keeps_objects():
            return self.call(L_HAS, X, value)
        return self._find(value) is not None

    def __iter__(self):
        return Iterator(self, same)

    def __reversed__(self):
        return Backwards(self)

    def sort(self, *, key=None, reverse=False):
        with section(self):
            items = self._items()
            self.call(L_CLEAR)
            try:
                items.sort(key=key, reverse=reverse)
            finally:
                changed = len(self) > 0
                self._put(items)
        if changed:
            raise ValueError("list modified during sort")

    @staticmethod
    def _other(other):
        return other._items() if isinstance(other, list) else other if isinstance(other, builtins.list) else None

    def __eq__(self, other):
        if type(self) is list and type(other) is list and not _rezunkai.keeps_objects():
            return self.call(L_EQ, X, X, other)
        other = self._other(other)
        return NotImplemented if other is None else self._items() == other

    def __lt__(self, other):
        other = self._other(other)
        return NotImplemented if other is None else self._items() < other

    def __le__(self, other):
        other = self._other(other)
        return NotImplemented if other is None else self._items() <= other

    def __gt__(self, other):
        other = self._other(other)
        return NotImplemented if other is None else self._items() > other

    def __ge__(self, other):
        other = self._other(other)
        return NotImplemented if other is None else self._items() >= other

    def __add__(self, other):
        items = self._other(other)
        if items is None:
            return NotImplemented
        return list._of(self._items() + items)

    def __iadd__(self, other):
        self.extend(other)
        return self

    def __mul__(self, n):
        try:
            n = n.__index__()
        except AttributeError:
            return NotImplemented
        return list._of(self._items() * n)

    __rmul__ = __mul__

    def __imul__(self, n):
        with section(self):
            self._put(self._items() * n.__index__())
        return self

    @reprlib.recursive_repr("[...]")
    def __repr__(self):
        return "[" + ", ".join(map(repr, self._items())) + "]"


collections.abc.MutableSequence.register(list)
