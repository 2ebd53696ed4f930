"""The set: what the library has no call for is made of its calls."""
import builtins
import collections.abc
import threading

from . import _rezunkai
from .ops import (S_AND, S_CLEAR, S_DISCARD, S_DISJOINT, S_EQ, S_ITEMS, S_OR, S_POP, S_REMOVE, S_SUB, S_SUBSET, S_XOR, X)
from .walks import Iterator, same

_shown = builtins.set()  # the sets whose repr is under way, each with its thread


class set(_rezunkai.Set):
    """A set of the engine. Calls, replies and exceptions are those of the built-in set."""

    _ITEMS = S_ITEMS
    __slots__ = ("__weakref__",)
    __hash__ = None

    def __reduce_ex__(self, protocol):
        return type(self), (self._items(),), self.__getstate__()

    def __init__(self, items=(), /, **kwargs):
        if kwargs:
            raise TypeError("set() takes no keyword arguments")
        self.clear()
        self.update(items)

    __class_getitem__ = classmethod(type(builtins.list[int]))

    def _items(self):
        return self.call(S_ITEMS)

    def _of(self, op, key):
        """A call with an element. A set that can't be hashed is looked for as a frozenset."""
        try:
            return self.call(op, key)
        except TypeError:
            if not isinstance(key, (set, builtins.set)):
                raise
        return self.call(op, frozenset(key))

    def discard(self, key, /):
        self._of(S_DISCARD, key)

    def remove(self, key, /):
        try:
            self._of(S_REMOVE, key)
        except KeyError:
            raise KeyError(key) from None

    def pop(self):
        return self.call(S_POP)

    def clear(self):
        self.call(S_CLEAR)

    def copy(self):
        made = set()
        made.call(S_OR, X, X, self)
        return made

    __copy__ = copy

    @staticmethod
    def _as_set(other):
        return other if isinstance(other, set) else set(other)

    def update(self, *others):
        for other in others:
            if isinstance(other, set):
                self.call(S_OR, X, X, other)
            else:
                for item in other:
                    self.add(item)

    def intersection_update(self, *others):
        for other in others:
            self.call(S_AND, X, X, self._as_set(other))

    def difference_update(self, *others):
        for other in others:
            self.call(S_SUB, X, X, self._as_set(other))

    def symmetric_difference_update(self, other):
        self.call(S_XOR, X, X, self._as_set(other))

    def union(self, *others):
        made = self.copy()
        made.update(*others)
        return made

    def intersection(self, *others):
        made = self.copy()
        made.intersection_update(*others)
        return made

    def difference(self, *others):
        made = self.copy()
        made.difference_update(*others)
        return made

    def symmetric_difference(self, other):
        made = self.copy()
        made.symmetric_difference_update(other)
        return made

    def isdisjoint(self, other):
        return self.call(S_DISJOINT, X, X, self._as_set(other))

    def issubset(self, other):
        return self.call(S_SUBSET, X, X, self._as_set(other))

    def issuperset(self, other):
        return self._as_set(other).call(S_SUBSET, X, X, self)

    def __iter__(self):
        return Iterator(self, same)

    @staticmethod
    def _is_set(other):
        return isinstance(other, (set, builtins.set, frozenset))

    def __eq__(self, other):
        if not self._is_set(other):
            return NotImplemented
        return self.call(S_EQ, X, X, self._as_set(other))

    def __le__(self, other):
        return self.issubset(other) if self._is_set(other) else NotImplemented

    def __ge__(self, other):
        return self.issuperset(other) if self._is_set(other) else NotImplemented

    def __lt__(self, other):
        return len(self) < len(other) and self.issubset(other) if self._is_set(other) else NotImplemented

    def __gt__(self, other):
        return len(self) > len(other) and self.issuperset(other) if self._is_set(other) else NotImplemented

    def __or__(self, other):
        return self.union(other) if self._is_set(other) else NotImplemented

    def __and__(self, other):
        return self.intersection(other) if self._is_set(other) else NotImplemented

    def __sub__(self, other):
        return self.difference(other) if self._is_set(other) else NotImplemented

    def __xor__(self, other):
        return self.symmetric_difference(other) if self._is_set(other) else NotImplemented

    __ror__, __rand__, __rxor__ = __or__, __and__, __xor__

    def __rsub__(self, other):
        return set(other).difference(self) if self._is_set(other) else NotImplemented

    def __ior__(self, other):
        if not self._is_set(other):
            return NotImplemented
        self.update(other)
        return self

    def __iand__(self, other):
        if not self._is_set(other):
            return NotImplemented
        self.intersection_update(other)
        return self

    def __isub__(self, other):
        if not self._is_set(other):
            return NotImplemented
        self.difference_update(other)
        return self

    def __ixor__(self, other):
        if not self._is_set(other):
            return NotImplemented
        self.symmetric_difference_update(other)
        return self

    def __repr__(self):
        name = type(self).__name__
        this = id(self), threading.get_ident()
        if this in _shown:
            return f"{name}(...)"
        _shown.add(this)
        try:
            inner = ", ".join(map(repr, self._items()))
        finally:
            _shown.discard(this)
        return f"{{{inner}}}" if inner and name == "set" else f"{name}({{{inner}}})" if inner else f"{name}()"


collections.abc.MutableSet.register(set)
