"""Writes a large script: one_thread, many_threads, sections or strings, of small containers; large_dict, large_set or
any_order, of one large container."""
import random
import sys

CALLS = 400_000


def one_thread():
    yield "dict d"
    yield "thread A"
    for i in range(CALLS):
        key = i * 7 % 50
        yield f"set d {key} 0" if i % 3 else f"get d {key}"


def many_threads():
    for kind, name in (("dict", "d"), ("list", "l"), ("set", "s")):
        yield f"{kind} {name}"
    for thread in range(64):
        yield f"thread T{thread}"
        for i in range(CALLS // 64):
            key = (i + thread) % 20
            yield (f"set d {key} 1", f"del d {key}", f"add s {key}", f"discard s {key}",
                   "append l 1", "pop l", "len l")[i % 7]


def sections():
    for name in "abcd":
        yield f"list {name}"
    for thread in range(8):
        yield f"thread T{thread}"
        first, second = "abcd"[thread % 4], "abcd"[(thread + 1) % 4]
        for _ in range(CALLS // 8 // 6):
            yield f"begin {first}"
            yield f"begin {first} {second}"
            yield f"append {second} 1"
            yield f"pop {second}"
            yield "end"
            yield "end"


def strings():
    yield "dict d"
    yield "thread A"
    for i in range(65_536):
        yield f'set d "{i:x}" 1'
        yield f'del d "{i:x}"'


def large_dict():
    yield "dict d"
    yield "thread A"
    for i in range(40_000):
        yield f"set d {i} 1"


def large_set():
    yield "set s"
    yield "thread A"
    for call in ("add", "discard"):
        for i in range(39_000):
            yield f"{call} s {i}"


def any_order():
    yield from large_dict()
    keys = list(range(40_000))
    random.Random(1).shuffle(keys)
    for key in keys:
        yield f"del d {key}"


print("\n".join(globals()[sys.argv[1]]()))
