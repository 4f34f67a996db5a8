"""The worked examples, refusals, inputs of every kind, and seeded collections beside a dict of words."""

import ctypes
import doctest
import pickle
import random
import unittest
from array import array

import corrivume
from corrivume import Collection, Dictionary, Error, Index, RunList, Side

SHEET = b"K\t3\nS\tAAACC\t2\t2\t5\nS\tAGAT\t7\t2\nS\tCAGCC\t7\t7\t3\nS\tTACA\t3\t5\n"


def turned(word):
    return word[::-1].translate(bytes.maketrans(b"ACGT", b"TGCA"))


def pairs(*ends):
    """Strings of two k-mers with these end weights."""
    return Collection(3, b"ACAT" * len(ends), range(4, 4 * len(ends) + 1, 4), [w for pair in ends for w in pair])


class Case(unittest.TestCase):
    def refused(self, number, place, call, *arguments):
        with self.assertRaises(Error) as caught:
            call(*arguments)
        error = caught.exception
        self.assertEqual((error.number, error.place), (number, place))
        self.assertTrue(str(error).endswith(f"(refusal {number})"))
        copy = pickle.loads(pickle.dumps(error))
        self.assertEqual((copy.number, copy.place, str(copy)), (number, place, str(error)))


class Examples(Case):
    def test_the_sheet(self):
        c = Collection.read(SHEET)
        self.assertEqual((c.k, c.strings, c.kmers, c.write()), (3, 4, 10, SHEET))
        c.check()
        self.assertEqual(len(c.runs()), 7)
        cover = c.cover()
        self.assertEqual((cover.paths, len(c.apply(cover.places).runs())), (1, 5))
        placed = c.apply([1, 4, -3, -2])
        self.assertEqual(placed.letters, b"AAACCTGTAGGCTGAGAT")
        self.assertEqual(list(placed.ends), [5, 9, 14, 18])
        self.assertEqual(list(placed.weights), [2, 2, 5, 5, 3, 3, 7, 7, 7, 2])
        self.assertEqual(list(placed.runs()), [(2, 1), (5, 3), (3, 5), (7, 7), (2, 10)])

    def test_questions(self):
        d = Dictionary(Collection.read(SHEET).apply([1, 4, -3, -2]), 2)
        self.assertEqual(d.ask(b"CAG"), (8, Side.TURNED, 3))
        self.assertEqual(d.weight("CAG"), 7)
        self.assertEqual(d.ask("TTT")[:2], (1, Side.TURNED))
        self.assertIsNone(d.ask("CCC"))
        self.assertIsNone(d.weight("CCC"))
        self.assertTrue({(6, 1), (7, 2)} <= set(zip(d.index.firsts, d.index.numbers)))
        self.assertEqual(d.collection.access(7), b"GCT")
        self.assertEqual(d.collection.plain("CAG"), (8, Side.TURNED))
        self.assertEqual(d.runs.weight(8), 7)

    def test_covers(self):
        three = Collection(3, "AAACCCAGCCTACA", [5, 10, 14], [2, 2, 5, 7, 7, 3, 3, 5])
        cover = three.cover()
        self.assertEqual((cover.paths, len(three.apply(cover.places).runs())), (1, 4))
        self.assertEqual(pairs((1, 2), (2, 3), (2, 2)).cover().paths, 1)
        self.assertEqual(pairs((4, 4), (9, 9)).cover().paths, 2)
        self.assertEqual((pairs().cover().paths, len(pairs().runs())), (0, 0))

    def test_docstrings(self):
        self.assertEqual(doctest.testmod(corrivume).failed, 0)


class Refusals(Case):
    def test_collections(self):
        one = lambda k, weight: Collection(k, b"A" * k, [k], [weight])
        one(3, 16_777_215), one(3, 1), one(31, 1)
        self.refused(6, 1, one, 3, 16_777_216)
        self.refused(6, 1, one, 3, 0)
        self.refused(2, 0, one, 32, 1)
        self.refused(2, 0, one, 2, 1)
        for k in (-1, 2**32 + 3, 2**64 + 3, -(2**64) + 3):
            self.refused(2, 0, Collection, k, b"AAA", [3], [1])
        self.refused(3, 0, Collection, 3, b"A" * (2**20 + 1), [2**20 + 1], [])
        self.refused(4, 2, Collection, 3, b"AAAAA", [100, 5], [])
        self.refused(4, 3, Collection, 3, b"A" * 50, [100, 200], [])
        self.refused(4, 1, Collection, 3, b"A", [], [])
        self.refused(5, 3, Collection, 3, b"ACN", [3], [1])
        self.refused(5, 3, Collection, 3, "AC\u0141", [4], [1, 1])
        self.refused(6, 0, Collection, 3, b"ACG", [3], [])
        self.refused(7, 2, Collection(3, b"ACGCGT", [3, 6], [1, 1]).check)
        self.refused(7, 2, Dictionary, Collection(3, b"ACGCGT", [3, 6], [1, 1]), 2)

    def test_calls(self):
        c = Collection.read(SHEET)
        self.refused(8, 0, c.apply, [1, -1])
        self.refused(8, 2, c.apply, [1, -1, 3, 4])
        self.refused(8, 2, c.apply, [1, -(2**31), 3, 4])
        for handle in (0, 11, -1, 2**64 + 1, 2**32 + 1):
            self.refused(9, 0, c.access, handle)
            self.refused(9, 0, c.runs().weight, handle)
        for p in (0, 4, 9, -1, 2**64 + 2):
            self.refused(2, 0, c.index, p)
        d = Dictionary(c, 2)
        for word in ("CA", "CAGC", "CAN", "cag", "", b"CA\0"):
            for call in (d.ask, d.weight, c.plain):
                self.refused(9, 0, call, word)
        self.refused(10, 0, Index(1, [1], [0], [2], [0, 1, 1, 1, 1]).quick, Collection(3, "AAA", [3], [1]), "AAA")
        self.refused(12, 0, RunList([1, 1], [1, 2], 2).weight, 1)
        self.refused(12, 0, RunList([1], [1], 2**64 + 2).weight, 1)

    def test_sheets(self):
        for sheet, number, place in (
            ("", 11, 1), ("K\t3", 11, 1), ("K\t03\n", 11, 1), ("K\t0\n", 2, 0), ("K\t2\nx", 2, 0), ("K\t3\n\n", 11, 2),
            ("K\t3\nS\tACG\t1\nS\tACG\t4294967297\n", 11, 3), ("K\t3\nS\tACG\t1\r\n", 11, 2), ("K\t3\nS\tACG\t1", 11, 2),
        ):  # fmt: skip
            self.refused(number, place, Collection.read, sheet)
        self.assertEqual(Collection.read("K\t31\n").write(), b"K\t31\n")


class Inputs(Case):
    def test_letters(self):
        same = Collection(3, b"AAACC", [5], [2, 2, 5])
        for kind in (str(b"AAACC", "ascii"), bytearray(b"AAACC"), memoryview(b"AAACC"), array("B", b"AAACC"),
                     memoryview(b"AxAxAxCxC")[::2]):  # fmt: skip
            self.assertEqual(Collection(3, kind, [5], [2, 2, 5]), same)
        self.assertEqual(Collection.read(bytearray(SHEET)), Collection.read(SHEET))
        for word in (b"GTT", bytearray(b"GTT"), memoryview(b"GTT"), array("B", b"GTT"), "GTT"):
            self.assertEqual(same.plain(word), (2, Side.TURNED))
            self.assertEqual(Dictionary(same, 2).weight(word), 2)
        with self.assertRaises(TypeError):
            Collection(3, array("I", [65, 65, 65]), [3], [2])

    def test_numbers(self):
        same = Collection(3, b"AAACC", [5], [2, 2, 5])
        shared = (ctypes.c_uint32 * 3)(2, 2, 5)
        for kind in ((2, 2, 5), array("I", [2, 2, 5]), array("q", [2, 2, 5]), bytearray([2, 2, 5]), shared,
                     memoryview(array("I", [2, 0, 2, 0, 5]))[::2], iter([2, 2, 5])):  # fmt: skip
            self.assertEqual(Collection(3, b"AAACC", [5], kind), same)
        for wrong, error in (([2**32], OverflowError), ([-1], OverflowError), (array("i", [-1]), OverflowError),
                             ([1.0], TypeError), (array("f", [1.0]), TypeError)):  # fmt: skip
            with self.assertRaises(error):
                Collection(3, b"AAA", [3], wrong)

    def test_nothing_is_shared(self):
        letters, weights = bytearray(b"AAACC"), array("I", [2, 2, 5])
        c = Collection(3, letters, [5], weights)
        letters[0], weights[0] = 0, 0
        self.assertEqual(c.write(), b"K\t3\nS\tAAACC\t2\t2\t5\n")
        with self.assertRaises(TypeError):
            c.weights[0] = 1

    def test_numpy(self):
        try:
            import numpy
        except ImportError:
            self.skipTest("numpy is not here")
        c = Collection(3, numpy.frombuffer(b"AAACC", "u1"), numpy.array([5], "u4"), numpy.array([2, 2, 5]))
        self.assertEqual(c, Collection(3, b"AAACC", [5], [2, 2, 5]))
        self.assertEqual(numpy.asarray(c.weights).sum(), 9)


class Random(Case):
    def free(self, r):
        """A collection without repeated words, as k, strings and their weights, and a dict of its words' weights."""
        k, words, strings = r.choice((3, 4, 5, 8, 21, 31)), {}, []
        pool = [r.randint(1, 9) for _ in range(r.randint(1, 5))]
        for _ in range(r.randint(0, 8)):
            string, weights = bytes(r.choices(b"ACGT", k=k)), []
            for _ in range(r.choice((1, 3, 20))):
                word = string[-k:]
                if min(word, turned(word)) in words:
                    string = string[:-1]
                    break
                weights.append(r.choice(pool))
                words[min(word, turned(word))] = weights[-1]
                string += bytes(r.choices(b"ACGT"))
            else:
                string = string[:-1]
            if weights:
                strings.append((string, weights))
        return k, strings, words

    def test_seeded(self):
        asked = 0
        for seed in range(3000):
            r = random.Random(seed)
            k, strings, words = self.free(r)
            letters = b"".join(s for s, _ in strings)
            ends = [sum(len(s) for s, _ in strings[: i + 1]) for i in range(len(strings))]
            weights = [w for _, ws in strings for w in ws]
            given = Collection(k, letters, ends, weights)
            lines = [b"S\t%s" % s + b"".join(b"\t%d" % w for w in ws) + b"\n" for s, ws in strings]
            self.assertEqual(given.write(), b"K\t%d\n" % k + b"".join(lines))
            self.assertEqual(Collection.read(given.write()), given)
            given.check()
            # Each string goes to its place, and no more runs than as given come of it.
            places, paths = given.cover()
            self.assertEqual(sorted(map(abs, places)), list(range(1, len(strings) + 1)))
            least = given.apply(places)
            put = [None] * len(strings)
            for (s, ws), place in zip(strings, places):
                put[abs(place) - 1] = (s, ws) if place > 0 else (turned(s), ws[::-1])
            self.assertEqual(least.letters, b"".join(s for s, _ in put))
            self.assertEqual(list(least.weights), [w for _, ws in put for w in ws])
            joins = sum(a[1][-1] == b[1][0] for a, b in zip(put, put[1:]))
            self.assertEqual(paths, len(strings) - joins)
            self.assertLessEqual(len(least.runs()), len(given.runs()))
            d = Dictionary(least, r.randint(1, min(k, 4)))
            handle = 0
            for s, ws in put:
                for i, w in enumerate(ws):
                    handle += 1
                    word = s[i : i + k]
                    self.assertEqual(least.access(handle), word)
                    self.assertEqual(d.ask(word)[:2], (handle, Side.ASKED))
                    self.assertEqual(d.ask(turned(word)).handle, handle)
                    self.assertEqual((d.weight(word), d.weight(turned(word)), d.runs.weight(handle)), (w, w, w))
                    asked += 2
            for _ in range(10):
                word = bytes(r.choices(b"ACGT", k=k))
                weight = words.get(min(word, turned(word)))
                self.assertEqual(d.weight(word), weight)
                self.assertEqual(least.plain(word) is None, weight is None)
                asked += 1
        print(f"{asked} words of 3000 collections")


if __name__ == "__main__":
    unittest.main()
