"""Tests of images and words: the one rule of words, wherever they are set."""

import time
import unittest
from array import array

import cgra

from .support import module

numpy = module("numpy")

MILLION = 1_000_000


class OneRule(unittest.TestCase):
    """Whole numbers from -2^31 to 2^32 - 1 are words, negative ones modulo 2^32; nothing else is."""

    def ways(self, value):
        """Returns each way in which a word can be set."""
        image = cgra.Image([0, 0], {2: [0]})
        return [
            lambda: cgra.Image([value]).memory[0],
            lambda: cgra.Image([], {1: [value]}).stream(1)[0],
            lambda: self.set(image.memory, value),
            lambda: self.set(image.stream(2), value),
            lambda: self.set_slice(image.memory, value),
            lambda: self.append(image.memory, value),
            lambda: self.extend(image.streams[3], value),
            lambda: self.assigned(value),
        ]

    @staticmethod
    def set(words, value):
        words[0] = value
        return words[0]

    @staticmethod
    def set_slice(words, value):
        words[0:1] = [value]
        return words[0]

    @staticmethod
    def append(words, value):
        words.append(value)
        return words[-1]

    @staticmethod
    def extend(words, value):
        words.extend([value])
        return words[-1]

    @staticmethod
    def assigned(value):
        image = cgra.Image()
        image.memory = [value]
        image.streams = {0: [value]}
        image.streams[1] = [value]
        assert image.stream(0) == image.stream(1) == image.memory
        return image.memory[0]

    def test_taken(self):
        for value, word in [(0, 0), (-1, 2**32 - 1), (-(2**31), 2**31), (2**32 - 1, 2**32 - 1), (True, 1)]:
            for number, way in enumerate(self.ways(value)):
                with self.subTest(value=value, way=number):
                    self.assertEqual(way(), word)

    def test_refused(self):
        cases = [(1.9, TypeError), (3.0, TypeError), ("1", TypeError), (None, TypeError)]
        cases += [(2**40 + 3, ValueError), (2**32, ValueError), (-(2**31) - 1, ValueError), (2**70, ValueError)]
        for value, error in cases:
            for number, way in enumerate(self.ways(value)):
                with self.subTest(value=value, way=number), self.assertRaises(error):
                    way()

    def test_ports(self):
        for port, error in [(16, ValueError), (-1, ValueError), (1.0, TypeError)]:
            with self.assertRaises(error):
                cgra.Image([], {port: [1]})
            with self.assertRaises(error):
                cgra.Image().stream(port)


class Lists(unittest.TestCase):
    def test_as_lists(self):
        words = cgra.Image([1, 2, 3]).memory
        self.assertEqual(words, [1, 2, 3])
        self.assertEqual([1, 2, 3], words)
        self.assertNotEqual(words, [1, 2])
        self.assertEqual(words[1:], [2, 3])
        words.insert(0, -1)
        del words[1]
        self.assertEqual(words, [2**32 - 1, 2, 3])
        words[::2] = [7, 8]
        self.assertEqual(words.pop(), 8)
        self.assertEqual(repr(words), "[7, 2]")
        self.assertEqual((sum(words), 2 in words, words.index(2)), (9, True, 1))
        with self.assertRaises(ValueError):
            words[::1] = [2**32]
        self.assertEqual(words, [7, 2])

    def test_other_sources(self):
        self.assertEqual(cgra.Image(range(3)).memory, [0, 1, 2])
        self.assertEqual(cgra.Image(array("h", [1, -1])).memory, [1, 2**32 - 1])
        self.assertEqual(cgra.Image(b"\1\2").memory, [1, 2])
        self.assertEqual(cgra.Image(cgra.Image([4]).memory).memory, [4])
        self.assertEqual(cgra.Image(value for value in (5, 6)).memory, [5, 6])

    def test_streams(self):
        image = cgra.Image([], {3: [1], 4: []})
        self.assertEqual(image.streams, {3: [1]})
        self.assertEqual(list(image.streams), [3])
        image.streams[4].append(9)
        self.assertEqual(dict(image.streams), {3: [1], 4: [9]})
        del image.streams[3]
        self.assertEqual(image, cgra.Image([], {4: [9]}))

    def test_limits(self):
        with self.assertRaises(ValueError):
            cgra.Image([], {0: range(MILLION + 1)})
        image = cgra.Image(range(1_048_576), {0: range(MILLION)})
        for words in (image.memory, image.stream(0)):
            with self.assertRaises(ValueError):
                words.append(0)
            with self.assertRaises(ValueError):
                words[0:0] = [1]


class Bytes(unittest.TestCase):
    def test_bytes(self):
        image = cgra.Image([9])
        self.assertEqual(image.to_bytes(), b"CGI1" + b"\0\0\0\1" + b"\0\0\0\t" + b"\0" * 64)
        self.assertEqual(cgra.Image.from_bytes(image.to_bytes()), image)
        image = cgra.Image([-1, 0x01020304], {3: [1, -2], 4: []})
        self.assertEqual(image.to_bytes()[8:16], b"\xff\xff\xff\xff\1\2\3\4")
        self.assertEqual(cgra.Image.from_bytes(image.to_bytes()), image)

    def test_refused(self):
        whole = cgra.Image().to_bytes()
        cases = [
            (b"CGI2", "I1 Magic byte 0"),
            (b"CGI1\0\0\0\1", "I2 Truncated length 8"),
            (b"CGI1\0\0", "I2 Truncated length 6"),
            (b"CGI1\0\x10\0\1", "I3 TooLarge memory 1048577"),
            (b"CGI1\0\0\0\0\0\x0f\x42\x41", "I3 TooLarge stream 0 1000001"),
            (whole + b"\0", "I4 Trailing byte 72"),
        ]
        for data, fault in cases:
            with self.subTest(fault=fault), self.assertRaises(ValueError) as raised:
                cgra.Image.from_bytes(data)
            self.assertTrue(str(raised.exception).startswith(fault))

    def test_many(self):
        for values in (list(range(MILLION)), list(range(-MILLION, 0))):
            start = time.process_time()
            image = cgra.Image(values)
            same = cgra.Image.from_bytes(image.to_bytes())
            self.assertLess(time.process_time() - start, 1.0)
            self.assertEqual((same, image.memory[-1]), (image, values[-1] % 2**32))


@unittest.skipIf(numpy is None, "numpy isn't installed")
class Arrays(unittest.TestCase):
    def test_in_and_out(self):
        image = cgra.Image(numpy.arange(4), {0: numpy.array([5, -6], dtype=numpy.int16)})
        self.assertEqual(image.memory, [0, 1, 2, 3])
        self.assertEqual(image.stream(0), [5, 2**32 - 6])
        for found in (image.memory_array(), numpy.asarray(image.memory)):
            self.assertEqual((found.dtype, found.tolist()), (numpy.uint32, [0, 1, 2, 3]))
        self.assertEqual(image.stream_array(0).tolist(), [5, 2**32 - 6])
        self.assertEqual(image.stream_array(1).tolist(), [])
        self.assertEqual(numpy.asarray(image.memory, dtype=numpy.int64).dtype, numpy.int64)

    def test_is_a_copy(self):
        image = cgra.Image([1, 2])
        image.memory_array()[0] = 7
        image.memory.append(3)
        self.assertEqual(image.memory, [1, 2, 3])

    def test_scalars(self):
        self.assertEqual(cgra.Image([numpy.int64(-1), numpy.uint8(2)]).memory, [2**32 - 1, 2])
        image = cgra.Image([0])
        image.memory[0] = numpy.int32(-1)
        self.assertEqual(image.memory, [2**32 - 1])

    def test_refused(self):
        for values in ([2**32], [-(2**31) - 1], [2**63]):
            with self.assertRaises(ValueError):
                cgra.Image(numpy.array(values))
        for values in ([1.0], [True], ["1"]):
            with self.assertRaises(TypeError):
                cgra.Image(numpy.array(values))
        with self.assertRaises(ValueError):
            cgra.Image(numpy.zeros((2, 2), dtype=int))

    def test_fast(self):
        values = numpy.arange(MILLION)
        start = time.process_time()
        image = cgra.Image(values)
        data = image.to_bytes()
        found = cgra.Image.from_bytes(data).memory_array()
        spent = time.process_time() - start
        self.assertTrue((found == values).all())
        self.assertLess(spent, 0.1)


if __name__ == "__main__":
    unittest.main()
