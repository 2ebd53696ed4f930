"""The dict: what the library has no call for is made of its calls."""
import builtins
import collections.abc
import reprlib

from . import _rezunkai
from .ops import (D_CLEAR, D_COPYTO, D_EQ, D_GETD, D_ITEMS, D_POP, D_POPD, D_POPITEM, D_SETDEFAULT, D_UPDATE, X)
from .walks import Items, Iterator, Keys, Values, first


class dict(_rezunkai.Dict):
    """A dict of the engine. Calls, replies and exceptions are those of the built-in dict."""

    _ITEMS = D_ITEMS
    __slots__ = ("__weakref__",)
    __hash__ = None

    def __reduce_ex__(self, protocol):
        return type(self), (), self.__getstate__(), None, iter(self.call(D_ITEMS))

    def __init__(self, *args, **kwargs):
        self.update(*args, **kwargs)

    @classmethod
    def fromkeys(cls, keys, value=None):
        d = cls()
        for key in keys:
            d[key] = value
        return d

    __class_getitem__ = classmethod(type(builtins.list[int]))

    def get(self, key, default=None, /):
        return self.call(D_GETD, key, default)

    def pop(self, key, *default):
        if len(default) > 1:
            raise TypeError("pop expected at most 2 arguments")
        return self.call(D_POPD, key, default[0]) if default else self.call(D_POP, key)

    def popitem(self):
        return self.call(D_POPITEM)

    def setdefault(self, key, default=None, /):
        return self.call(D_SETDEFAULT, key, default)

    def clear(self):
        self.call(D_CLEAR)

    def copy(self):
        d = dict()
        self.call(D_COPYTO, X, X, d)
        return d

    __copy__ = copy

    def update(self, *args, **kwargs):
        if len(args) > 1:
            raise TypeError("update expected at most 1 argument")
        if args:
            other = args[0]
            if type(other) is dict:
                self.call(D_UPDATE, X, X, other)
            elif hasattr(other, "keys"):
                for key in other.keys():
                    self[key] = other[key]
            else:
                for n, pair in enumerate(other):
                    try:
                        pair = tuple(pair)
                    except TypeError:
                        raise TypeError(f"cannot convert dictionary update sequence element #{n} to a sequence") from None
                    if len(pair) != 2:
                        raise ValueError(f"dictionary update sequence element #{n} has length {len(pair)}; 2 is required")
                    self[pair[0]] = pair[1]
        for key, value in kwargs.items():
            self[key] = value

    def keys(self):
        return Keys(self)

    def values(self):
        return Values(self)

    def items(self):
        return Items(self)

    def __iter__(self):
        return Iterator(self, first)

    def __reversed__(self):
        return reversed(Keys(self))

    def __eq__(self, other):
        if type(self) is dict and type(other) is dict and not _rezunkai.keeps_objects():
            return self.call(D_EQ, X, X, other)
        if not isinstance(other, (dict, builtins.dict)):
            return NotImplemented
        if len(self) != len(other):
            return False
        missing = object()
        for key, value in self.call(D_ITEMS):
            found = other.get(key, missing)
            if found is missing or not (found is value or found == value):
                return False
        return True

    def __or__(self, other):
        if not isinstance(other, (dict, builtins.dict)):
            return NotImplemented
        d = self.copy()
        d.update(other)
        return d

    def __ror__(self, other):
        if not isinstance(other, (dict, builtins.dict)):
            return NotImplemented
        d = dict(other)
        d.update(self)
        return d

    def __ior__(self, other):
        self.update(other)
        return self

    @reprlib.recursive_repr("{...}")
    def __repr__(self):
        return "{" + ", ".join(f"{k!r}: {v!r}" for k, v in self.call(D_ITEMS)) + "}"


collections.abc.MutableMapping.register(dict)
