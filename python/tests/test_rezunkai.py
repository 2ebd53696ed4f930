"""Tests of the module beside the built-in types, which say what is right. Each test runs in a process of its own, since a
process has one engine. The program ftpy judges recordings: ../ftpy, or what the variable FTPY names."""
import builtins
import os
import random
import subprocess
import sys
import tempfile
import threading
import unittest

import rezunkai

HERE = os.path.dirname(os.path.abspath(__file__))
FTPY = os.environ.get("FTPY", os.path.join(HERE, "..", "..", "ftpy"))
KEYS = [0, 1, -1, 7, 2**63 - 1, -2**63, "", "a", "ü", "\ud800", "7"]
VALUES = KEYS + [None]


def came(call):
    """What a call returns or raises."""
    try:
        return call()
    except Exception as fault:
        return type(fault), fault.args


class Alone(unittest.TestCase):
    """Runs each test in a child of its own."""

    def run(self, result=None):
        child = os.fork()
        if child == 0:
            mine = unittest.TestResult()
            super().run(mine)
            for _, text in mine.errors + mine.failures:
                print(text, file=sys.stderr)
            os._exit(not mine.wasSuccessful())
        result.startTest(self)
        if os.waitpid(child, 0)[1]:
            result.addFailure(self, (AssertionError, AssertionError("it failed in its process"), None))
        else:
            result.addSuccess(self)
        result.stopTest(self)

    def run_all(self, work, count=4):
        sys.setswitchinterval(1e-5)
        faults = []

        def tried(n):
            try:
                work(n)
            except BaseException as fault:
                faults.append(fault)
        threads = [threading.Thread(target=tried, args=(n,)) for n in range(count)]
        for thread in threads:
            thread.start()
        for thread in threads:
            thread.join()
        self.assertEqual(faults, [])


class Calls(Alone):
    def agree(self, ours, theirs, calls, count):
        """Random calls come out alike, and so does what the two have in the end."""
        draw = random.Random(1)
        for _ in range(count):
            name, takes = draw.choice(calls)
            args = [draw.choice({"k": KEYS, "v": VALUES, "i": range(-5, 6)}[take]) for take in takes]
            self.assertEqual(came(lambda: getattr(ours, name)(*args)), came(lambda: getattr(theirs, name)(*args)), (name, args))
        self.assertEqual([*ours], [*theirs])
        self.assertEqual(len(ours), len(theirs))

    def test_dict(self):
        calls = [("__getitem__", "k"), ("__setitem__", "kv"), ("__setitem__", "kv"), ("__delitem__", "k"), ("get", "k"),
                 ("get", "kv"), ("pop", "k"), ("pop", "kv"), ("popitem", ""), ("setdefault", "kv"), ("__contains__", "k"),
                 ("__len__", ""), ("__repr__", "")]
        ours, theirs = rezunkai.dict(), {}
        self.agree(ours, theirs, calls, 3000)
        self.assertEqual([*ours.items()], [*theirs.items()])
        self.assertEqual(ours, theirs)
        self.assertEqual(ours.copy() | {"z": 1}, theirs | {"z": 1})

    def test_list(self):
        calls = [("append", "v"), ("append", "v"), ("insert", "iv"), ("__getitem__", "i"), ("__setitem__", "iv"),
                 ("__delitem__", "i"), ("pop", ""), ("pop", "i"), ("count", "v"), ("__contains__", "v"), ("remove", "v"),
                 ("reverse", ""), ("__len__", ""), ("__repr__", "")]
        ours, theirs = rezunkai.list(), []
        self.agree(ours, theirs, calls, 3000)
        ours[1:3] = theirs[1:3] = ["q", "r", "s"]
        self.assertEqual(ours, theirs)
        self.assertEqual(ours[::-2], theirs[::-2])
        self.assertTrue(ours == ours.copy() and ours != ours[1:])

    def test_set(self):
        calls = [("add", "k"), ("add", "k"), ("discard", "k"), ("remove", "k"), ("__contains__", "k"), ("__len__", "")]
        ours, theirs = rezunkai.set(), builtins.set()
        draw = random.Random(2)
        for _ in range(3000):
            name, takes = draw.choice(calls)
            args = [draw.choice(KEYS) for _ in takes]
            self.assertEqual(came(lambda: getattr(ours, name)(*args)), came(lambda: getattr(theirs, name)(*args)), (name, args))
        self.assertEqual(ours, theirs)
        self.assertEqual(ours ^ {1, "n"}, theirs ^ {1, "n"})

    def test_other_types(self):
        d, l, s = rezunkai.dict(), rezunkai.list(), rezunkai.set()
        for call in (lambda: d.__setitem__(1.5, 1), lambda: d.__setitem__(None, 1), lambda: d.__setitem__(1, []),
                     lambda: d.__setitem__(2**63, 1), lambda: d.__setitem__(True, 1), lambda: l.append(2**63),
                     lambda: l.append(b""), lambda: s.add(()), lambda: s.add([]), lambda: 1.5 in d):
            self.assertEqual(came(call)[0], TypeError)
        self.assertEqual((len(d), len(l), len(s)), (0, 0, 0))

    def test_changed_in_a_walk(self):
        d, s = rezunkai.dict({1: 1, 2: 2}), rezunkai.set([1, 2])
        for box, change, said in ((d, lambda: d.__setitem__(3, 3), "dictionary changed size during iteration"),
                                  (s, lambda: s.add(3), "Set changed size during iteration")):
            walk = iter(box)
            next(walk)
            change()
            with self.assertRaisesRegex(RuntimeError, said):
                next(walk)

    def test_containers_come_again(self):
        rezunkai.open(dicts=2, lists=1, sets=1, threads=2)
        kept = rezunkai.dict({1: 1})
        for n in range(1000):
            self.assertEqual(len(rezunkai.dict()), 0)
            rezunkai.dict({n: n})
        other = rezunkai.dict()
        with self.assertRaises(MemoryError):
            rezunkai.dict()
        del other
        self.assertEqual((rezunkai.dict({2: 2}), kept), ({2: 2}, {1: 1}))

    def test_open(self):
        with self.assertRaises(ValueError):
            rezunkai.open(dicts=257)
        rezunkai.open(dicts=1, lists=0, sets=0)
        with self.assertRaises(RuntimeError):
            rezunkai.open()
        with self.assertRaises(RuntimeError):
            rezunkai.record()

    def test_limits(self):
        rezunkai.open(tables=[8] * 14)
        d, l = rezunkai.dict(), rezunkai.list()
        with self.assertRaises(MemoryError):
            for n in range(43691):
                d[n] = n % 256
        self.assertEqual(len(d), 43690)
        l.extend(n % 256 for n in range(65536))
        with self.assertRaises(MemoryError):
            l.append(0)
        with self.assertRaises(RuntimeError):
            with rezunkai.section(d):
                for _ in range(16):
                    rezunkai.section(d).__enter__()

    def test_heap(self):
        rezunkai.open(heap=64)
        d, l = rezunkai.dict(), rezunkai.list(["a"] * 60)
        d["n"], d["m"], d[1000], d["o"] = 257, -6, "b", 2**40
        for call in (lambda: l.append(1000), lambda: l.append(""), lambda: l.insert(0, 257), lambda: l.__setitem__(0, "b"),
                     lambda: d.__setitem__("n", 300), lambda: d.setdefault("p", "c")):
            self.assertRaises(MemoryError, call)
        self.assertEqual((d, l), ({"n": 257, "m": -6, 1000: "b", "o": 2**40}, ["a"] * 60))
        l.append(256)
        d["n"] = None
        l[0] = "b"
        self.assertEqual((d["n"], l[0], l[-1]), (None, "b", 256))
        self.run_all(lambda n: l.append(1000 + n), 3)
        del d["m"]
        self.run_all(lambda n: l.clear() if n == 0 else None, 2)
        l.extend(range(1000, 1060))
        self.assertEqual(l, [*range(1000, 1060)])

    def test_objects(self):
        rezunkai.open(objects=True)
        d = rezunkai.dict({(1, 2): [], 1.0: "x", None: {}})
        self.assertEqual((d[(1, 2)], d[1], d[None]), ([], "x", {}))


class Threads(Alone):
    def test_no_raise_is_lost(self):
        d, l = rezunkai.dict(n=0), rezunkai.list()

        def work(_):
            for n in range(500):
                with rezunkai.section(d, l) as section:
                    d["n"] = d["n"] + 1
                    l.append(n)
                self.assertTrue(section.kept)
        self.run_all(work)
        self.assertEqual((d["n"], len(l)), (2000, 2000))

    def test_a_thread_that_blocks_keeps_no_table(self):
        """One thread waits for an event while the others take and leave thousands of tables."""
        rezunkai.open(tables=[16] * 6 + [1] * 8)
        done = threading.Event()
        d = rezunkai.dict(a=1)

        def work(n):
            if n == 0:
                self.assertEqual(d["a"], 1)
                done.wait()
                return
            for _ in range(300):
                box = rezunkai.dict()
                for key in range(40):
                    box[key] = key
            done.set()
        self.run_all(work, 2)

    def test_sessions_come_again(self):
        d = rezunkai.dict()
        for n in range(200):
            self.run_all(lambda m: d.__setitem__(m, n), 2)
        self.assertEqual(d, {0: 199, 1: 199})

    def test_a_walk_in_another_thread(self):
        walk = iter(rezunkai.list(range(100)))
        got = []
        self.run_all(lambda _: got.extend(walk), 3)
        self.assertEqual(sorted(got), [*range(100)])


class Records(Alone):
    def judged(self, text):
        return subprocess.run([FTPY, "check"], input=text.encode(), capture_output=True).stdout.decode().strip()

    def recorded(self):
        record = rezunkai.record()
        d, e, l, s = rezunkai.dict(), rezunkai.dict(), rezunkai.list(), rezunkai.set()

        def work(n):
            draw = random.Random(n)
            for i in range(150):
                with rezunkai.section(d, l):
                    d['a"\\'] = d.get('a"\\', 0) + 1
                    l.append(draw.choice(VALUES[:9]))
                    with rezunkai.section(s):
                        s.add(i)
                came(lambda: e.pop(draw.choice([1, 2, "ü"])))
                e[draw.choice([1, 2, "ü"])] = None
                s.discard(draw.randrange(40))
                came(lambda: [*s] and [*e.items()])
                came(lambda: l.remove(draw.randrange(5)))
                e.update(d)
                if draw.randrange(9) == 0:
                    s.clear()
        self.run_all(work)
        return record

    def test_a_record_is_legal(self):
        record = self.recorded()
        with tempfile.TemporaryDirectory() as folder:
            path = os.path.join(folder, "record")
            record.write(path)
            with open(path, encoding="utf-8") as file:
                text = file.read()
        self.assertIn(" waited T", text)
        self.assertEqual(self.judged(text), "legal")

    def test_a_changed_record_is_not(self):
        text = self.recorded().text()
        self.assertEqual(self.judged(text.replace(" = 7\n", " = 8\n", 1).replace(" = 3\n", " = 4\n", 1)).split(" at ")[0], "not legal")


del Alone
if __name__ == "__main__":
    unittest.main()
