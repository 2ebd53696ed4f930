#!/usr/bin/env python3
"""The workloads of crates/ft_bench with the built-in dict, list and set of this python3 and its threads:
peer.py list | WORKLOAD THREADS [SECONDS]. The streams and the output are those of ft_bench. With a global interpreter
lock only one thread runs at a time; a free-threaded build may be given as the interpreter."""

import sys
import threading
import time

GET, SET, GET_BOXED, SET_BOXED, ITEM, APPEND, ADD, DISCARD, HAS = range(9)
WORKLOADS = {
    "A": ("dict", 0), "B": ("dict", 5), "C": ("dict", 50),
    "Ab": ("boxes", 0), "Bb": ("boxes", 5), "Cb": ("boxes", 50),
    "D": ("growth", 32768), "Ds": ("growth", 2730),
    "E": ("list", 50), "E95": ("list", 5),
    "F": ("set", 25), "F90": ("set", 5),
}
OPERATIONS, BATCH, APPENDS, FIRST_PAIRS, GETS = 16384, 1024, 3072, 8, 64
# A value has eight bits: the lower five are those of the key, the others those of the serial; python3 has these integers
# from its start. A value in a "box" has 40, of which it makes each anew: the highest is set, then come 29 of the serial,
# and the lower ten are the key.
LEAST, SERIALS = 2**39, 2**29


def operation_of(way, part, number):
    high = number >> 33
    key, p = high // 8 % 1000, high // 8000 % 100
    if way == "dict":
        return (SET if p < part else GET, key)
    if way == "boxes":
        return (SET_BOXED if p < part else GET_BOXED, key)
    if way == "growth":
        return (GET, key % 8)
    if way == "list":
        return (APPEND if p < part else ITEM, key)
    return (ADD if p < part else DISCARD if p < 2 * part else HAS, key)


def operations(way, part, thread):
    made, number = [], thread + 1
    for _ in range(OPERATIONS):
        number = (number * 6364136223846793005 + 1442695040888963407) % 2**64
        made.append(operation_of(way, part, number))
    return made


class Course:
    def __init__(self, way, part, threads, nanos):
        self.way, self.part, self.threads, self.nanos = way, part, threads, nanos
        self.meeting = threading.Barrier(threads)
        self.over = self.filling = False
        self.dict, self.list, self.set = {}, [], set()


class Tally:
    def __init__(self, course, thread):
        self.thread, self.place, self.serial = thread, 0, 0
        self.operations = operations(course.way, course.part, thread)
        self.made = self.wrong = self.nanos = self.pairs = self.pair_nanos = 0
        self.stalls = []


def make(course, tally, chosen):
    """Makes these operations, and counts them."""
    d, l, s, serial, wrong = course.dict, course.list, course.set, tally.serial, 0
    for kind, key in chosen:
        if kind == GET:
            if d[key] & 31 != key % 32:
                wrong += 1
        elif kind == SET:
            serial += 1
            d[key] = serial % 8 * 32 + key % 32
        elif kind == GET_BOXED:
            value = d[key]
            if value < LEAST or value & 1023 != key:
                wrong += 1
        elif kind == SET_BOXED:
            serial += 1
            d[key] = LEAST + serial * 1024 + key
        elif kind == ITEM:
            if l[key] & 31 != key % 32:
                wrong += 1
        elif kind == APPEND:
            serial += 1
            l.append(serial % 8 * 32 + key % 32)
        elif kind == ADD:
            s.add(key)
        elif kind == DISCARD:
            s.discard(key)
        else:
            key in s
    tally.serial = serial % SERIALS
    tally.made += len(chosen) - wrong
    tally.wrong += wrong


def take(tally, count):
    """The next operations, so many."""
    place = tally.place
    tally.place = (place + count) % OPERATIONS
    chosen = tally.operations[place:place + count]
    return chosen + tally.operations[:count - len(chosen)]


def take_appends(tally, appends):
    """The next operations, as many as have so many appends."""
    chosen, place = [], tally.place
    while appends > 0:
        operation = tally.operations[place]
        place = (place + 1) % OPERATIONS
        chosen.append(operation)
        appends -= operation[0] == APPEND
    tally.place = place
    return chosen


def freshen(course):
    if course.way == "growth":
        course.dict = {key: key for key in range(FIRST_PAIRS)}
    elif course.way == "list":
        course.list = [key % 32 for key in range(1000)]


def fill(course):
    if course.way == "dict":
        course.dict = {key: key % 32 for key in range(1000)}
    elif course.way == "boxes":
        course.dict = {key: LEAST + key for key in range(1000)}
    elif course.way == "set":
        course.set = set(range(0, 1000, 2))


def grow(course, tally):
    if tally.thread == 0:
        chosen = [(SET, key) for key in range(FIRST_PAIRS, course.part)]
        start = time.monotonic_ns()
        make(course, tally, chosen)
        tally.pair_nanos += time.monotonic_ns() - start
        tally.pairs += len(chosen)
        course.filling = False
        return
    longest = 0
    while True:
        chosen = take(tally, GETS)
        start = time.monotonic_ns()
        make(course, tally, chosen)
        longest = max(longest, time.monotonic_ns() - start)
        if not course.filling:
            break
    tally.stalls.append(longest)


def play(course, tally, chosen):
    if course.way == "growth":
        return grow(course, tally)
    if course.way == "list":
        return make(course, tally, chosen)
    start = time.monotonic_ns()
    while True:
        make(course, tally, take(tally, BATCH))
        if time.monotonic_ns() - start >= course.nanos:
            return


def go(course, tally):
    rounds = 0
    while True:
        if tally.thread == 0:
            if rounds == 0:
                fill(course)
            freshen(course)
            course.over = tally.nanos >= course.nanos
            course.filling = True
        chosen = take_appends(tally, APPENDS // course.threads) if course.way == "list" else None
        course.meeting.wait()
        if course.over:
            return
        start = time.monotonic_ns()
        play(course, tally, chosen)
        course.meeting.wait()
        tally.nanos += time.monotonic_ns() - start
        rounds += 1


def show(course, tallies):
    made, wrong = sum(t.made for t in tallies), sum(t.wrong for t in tallies)
    line = f"{made} {max(t.nanos for t in tallies) / 1e9:.9f} bad={wrong}"
    if course.way == "growth":
        rounds = len(tallies[-1].stalls)
        stalls = sorted(max(t.stalls[r] for t in tallies if r < len(t.stalls)) for r in range(rounds)) or [0]
        mops = tallies[0].pairs * 1e3 / max(tallies[0].pair_nanos, 1)
        line += f" write_mops={mops:.3f} stall_med_ns={stalls[len(stalls) // 2]} stall_max_ns={stalls[-1]}"
    print(line)


def main(words):
    if words == ["list"]:
        for name, (way, _) in WORKLOADS.items():
            print(f"{name}:{'2,4' if way == 'growth' else '1,2,4'}")
        return 0
    if len(words) not in (2, 3) or words[0] not in WORKLOADS:
        print("usage: peer.py list | WORKLOAD THREADS [SECONDS]", file=sys.stderr)
        return 2
    threads, seconds = int(words[1]), float(words[2]) if len(words) == 3 else 0.25
    course = Course(*WORKLOADS[words[0]], threads, int(seconds * 1e9))
    tallies = [Tally(course, thread) for thread in range(threads)]
    all_threads = [threading.Thread(target=go, args=(course, tally)) for tally in tallies]
    for thread in all_threads:
        thread.start()
    for thread in all_threads:
        thread.join()
    show(course, tallies)
    return 0


if __name__ == "__main__":
    sys.exit(main(sys.argv[1:]))
