"""Walks over containers, and the views of a dict."""
import builtins
import collections.abc
import types

from . import _rezunkai
from .ops import D_ITEMS


class Iterator:
    """A walk over a container, which picks something of each pair, item or element."""

    __slots__ = ("_box", "_walk", "_pick", "_made", "_length")

    def __init__(self, box, pick):
        self._box, self._walk, self._pick, self._made, self._length = box, _rezunkai.Walk(box), pick, 0, len(box)

    def __iter__(self):
        return self

    def __next__(self):
        if self._walk is None:
            raise StopIteration
        try:
            found = next(self._walk)
        except StopIteration:
            self._box = self._walk = None
            raise
        self._made += 1
        return self._pick(found)

    def __reduce__(self):
        if self._walk is None:
            return iter, ([],)
        if isinstance(self._box, _rezunkai.List):
            return iter, (self._box,), self._made
        return iter, ([self._pick(found) for found in self._box.call(self._box._ITEMS)[self._made:]],)

    def __setstate__(self, made):
        for _ in range(made - self._made):
            next(self, None)

    def __length_hint__(self):
        return max(self._length - self._made, 0) if self._walk is not None else 0


class Backwards:
    """A walk over a list from its end, by index."""

    __slots__ = ("_box", "_index")

    def __init__(self, box):
        self._box, self._index = box, len(box) - 1

    def __iter__(self):
        return self

    def __next__(self):
        if self._index >= 0:
            try:
                found = self._box[self._index]
            except IndexError:
                self._index = -1
            else:
                self._index -= 1
                return found
        self._box = None
        raise StopIteration

    def __reduce__(self):
        return (iter, ([],)) if self._box is None else (reversed, (self._box,), self._index)

    def __setstate__(self, index):
        self._index = max(min(index, len(self._box) - 1), -1)

    def __length_hint__(self):
        return self._index + 1 if self._index + 1 <= len(self._box or ()) else 0


def first(pair):
    return pair[0]


def second(pair):
    return pair[1]


def same(found):
    return found


class View:
    """What keys(), values() and items() of a dict return."""

    _pick = staticmethod(same)

    def __init__(self, d):
        self._d = self._mapping = d

    @property
    def mapping(self):
        return types.MappingProxyType(self._d)

    def __len__(self):
        return len(self._d)

    def __iter__(self):
        return Iterator(self._d, self._pick)

    def __reversed__(self):
        return iter([self._pick(pair) for pair in reversed(self._d.call(D_ITEMS))])

    def __repr__(self):
        return f"dict_{type(self).__name__.lower()}({builtins.list(self)!r})"


class Keys(View, collections.abc.KeysView):
    _pick = staticmethod(first)


class Items(View, collections.abc.ItemsView):
    pass


class Values(View, collections.abc.ValuesView):
    _pick = staticmethod(second)
