"""Tests of rbu.py, on Area A's file: python3 python/test_rbu.py, from any folder.

Standard output has Area A's listing, as crates/area_a/stdout has it, and nothing else; the tests are told on standard error. The exit
status is 0 only where all of them hold and each answer, 0 to 23, has been met.
"""

import copy
import ctypes
import doctest
import os
import pathlib
import pickle
import random
import shutil
import struct
import subprocess
import sys
import tempfile
import unittest

# the tests leave nothing behind in the checkout
sys.dont_write_bytecode = True

FOLDER = pathlib.Path(__file__).resolve().parent
ROOT = FOLDER.parent
sys.path.insert(0, str(FOLDER))
import rbu  # noqa: E402

AREA_A = (ROOT / "crates" / "area_a" / "stdin").read_bytes()
LISTING = (ROOT / "crates" / "area_a" / "stdout").read_text()

# The numbers of the answers that were met.
MET = set()


def said(call, *arguments):
    """Number, place and word of the answer to a call."""
    try:
        call(*arguments)
    except rbu.Refusal as refusal:
        if str(refusal) != f"{refusal.number} {refusal.place} {refusal.word}":
            raise AssertionError(f"a refusal is written as {refusal}") from None
        MET.add(refusal.number)
        return refusal.number, refusal.place, refusal.word
    MET.add(0)
    return 0, 0, "done"


def values(part):
    """A record's fields as nested tuples; padding may hold anything, so bytes are not compared."""
    if isinstance(part, ctypes.Structure):
        return tuple((name, values(getattr(part, name))) for name, _ in part._fields_)
    if isinstance(part, ctypes.Array):
        return tuple(map(values, part))
    return part


def two_trains(cycles):
    """Area A with the two trains of the listing, after some cycles."""
    area = rbu.Area(AREA_A)
    area.enter(1, 1, 250, 1)
    area.enter(2, 2, 200, 1)
    for _ in range(cycles):
        area.cycle(300)
    return area


def segments_under(tables, train):
    """The segments under a train, from its front's back to its rear's, reckoned from the tables."""
    start = 32 * (train.route - 1) + 1
    own, *behind = reversed(tables.routebytes[start : start + train.place])
    segments, end = [own], 0
    for segment in behind:
        # `end` is where this one ends, seen from the start of the front's
        if train.position - train.length >= end:
            break
        segments.append(segment)
        end -= tables.lengths[segment - 1]
    return segments


def listing():
    """Area A's listing by the binding."""
    lines, area = ["cycle train segment position speed"], two_trains(0)
    for cycle in range(1, 7):
        area.cycle([300] * 24)
        lines += [f"{cycle} {number} {area.segment_of(number)} {train.position} {train.speed}" for number, train in area.trains_on()]
    return "".join(line + "\n" for line in lines)


# ---- files

BLOCK = 512


def segment_at(number):
    return BLOCK * (1 + (number - 1) // 31) + 16 * ((number - 1) % 31)


def route_at(number):
    return BLOCK * (3 + (number - 1) // 15) + 32 * ((number - 1) % 15)


def sealed(file):
    """The file with the check of each block set right."""
    file = bytearray(file)
    for start in range(0, len(file), BLOCK):
        first = second = 0
        for byte in file[start : start + 510]:
            first = (first + byte) % 255
            second = (second + first) % 255
        file[start + 510 : start + 512] = first, second
    return bytes(file)


def damaged(*changes):
    """Area A's file with bytes put at places."""
    file = bytearray(AREA_A)
    for at, put in changes:
        file[at : at + len(put)] = put
    return bytes(file)


def changed(*changes):
    """The same with the checks set right."""
    return sealed(damaged(*changes))


def u16(number):
    return struct.pack("<H", number)


def u32(number):
    return struct.pack("<I", number)


# Fields of a segment record.
LIMIT, NEXT, PREVIOUS, FLAGS, ZEROS = 4, 6, 8, 10, 11

REFUSED_FILES = [
    (b"", (1, 0, "size")),
    (AREA_A[:-1], (1, 0, "size")),
    (AREA_A + b"\0", (1, 0, "size")),
    (damaged((600, b"\1")), (2, 1, "damaged")),
    (damaged((511, bytes([AREA_A[511] ^ 1]))), (2, 0, "damaged")),
    (damaged((496, b"\x09"), (4 * BLOCK + 510, b"\x08")), (2, 0, "damaged")),
    (damaged((4 * BLOCK + 510, b"\x08")), (2, 4, "damaged")),
    (changed((496, b"\x09")), (3, 0, "misfiled")),
    (changed((BLOCK + 509, b"\1")), (3, 1, "misfiled")),
    (changed((3 * BLOCK + 480, b"\1")), (3, 3, "misfiled")),
    (changed((4 * BLOCK + 497, b"\3")), (3, 4, "misfiled")),
    (changed((0, b"\2")), (4, 0, "header")),
    (changed((1, b"\x3f")), (4, 0, "header")),
    (changed((4, u16(2001))), (4, 0, "header")),
    (changed((6, u16(0))), (4, 0, "header")),
    (changed((8, u32(4_000_001))), (4, 0, "header")),
    (changed((8, u32(4649))), (5, 0, "margin")),
    (changed((1, b"\2")), (6, 1, "segment")),
    (changed((segment_at(2), u32(4950))), (6, 2, "segment")),
    (changed((segment_at(3) + PREVIOUS, b"\1\1")), (6, 3, "segment")),
    (changed((segment_at(3) + ZEROS, b"\1")), (6, 3, "segment")),
    (changed((segment_at(62) + FLAGS, b"\1")), (6, 62, "segment")),
    (changed((segment_at(3) + PREVIOUS, b"\2\0")), (7, 1, "joint")),
    (changed((segment_at(2) + NEXT, b"\0\0")), (7, 3, "joint")),
    (changed((segment_at(3) + NEXT, b"\1\0"), (segment_at(1) + PREVIOUS, b"\3\0")), (8, 3, "order")),
    (changed((segment_at(1) + NEXT, b"\3\1"), (segment_at(1) + PREVIOUS, b"\1\0")), (8, 1, "order")),
    (changed((segment_at(3) + LIMIT, u16(289))), (9, 1, "drop")),
    (changed((route_at(1), b"\x20")), (10, 1, "route")),
    (changed((route_at(2), b"\2\3\2")), (10, 2, "route")),
    (changed((route_at(30) + 31, b"\1")), (10, 30, "route")),
]

NO_ENTRY = changed((segment_at(2) + FLAGS, b"\0"))


class Answers(unittest.TestCase):
    """Each answer by number, place and word, and that a refusal changes nothing."""

    def refused(self, area, answer, call, *arguments):
        before = values(area.record)
        self.assertEqual(said(call, *arguments), answer, f"{call.__name__}{arguments}")
        self.assertEqual(values(area.record), before, f"{call.__name__}{arguments} was refused and changed the record")

    def test_files(self):
        self.assertEqual(changed(), AREA_A)
        self.assertEqual((said(rbu.load, AREA_A), said(rbu.Area, AREA_A), rbu.load(AREA_A)), ((0, 0, "done"), (0, 0, "done"), None))
        for file, answer in REFUSED_FILES:
            self.assertEqual((said(rbu.load, file), said(rbu.Area, file)), (answer, answer))

    def test_what_a_file_may_be(self):
        as_array = (ctypes.c_uint16 * 1280).from_buffer_copy(AREA_A)
        doubled = memoryview(bytes(byte for byte in AREA_A for _ in range(2)))[::2]
        for file in (AREA_A, bytearray(AREA_A), memoryview(AREA_A), as_array, doubled):
            self.assertEqual((rbu.load(file), rbu.Area(file).write()), (None, AREA_A))
        lent = bytearray(AREA_A)
        area = rbu.Area(lent)
        lent[:] = bytes(rbu.FILE_SIZE)
        self.assertEqual((area.write(), area.is_sound()), (AREA_A, True))
        for file in (None, 2560, True, "x" * 2560, list(AREA_A), tuple(AREA_A), ROOT / "crates" / "area_a" / "stdin"):
            for call in (rbu.Area, rbu.load):
                with self.assertRaisesRegex(TypeError, "^file is a "):
                    call(file)

    def test_calls(self):
        area = two_trains(1)
        turn, train, length, wishes = (12, 0, "turn"), (13, 0, "train"), (23, 0, "length"), (21, 0, "wishes")
        for step in (area.request, area.grant, area.position):
            self.refused(area, turn, step)
        for number in (0, 25, 257, 65_535):
            self.refused(area, train, area.enter, number, 1, 0, 1)
            self.refused(area, train, area.leave, number)
        self.refused(area, (14, 0, "already on"), area.enter, 1, 1, 0, 1)
        self.refused(area, (15, 0, "not on"), area.leave, 24)
        for route in (0, 3, 258, 65_535):
            self.refused(area, (16, 0, "route number"), area.enter, 3, route, 0, 1)
        for number in (0, rbu.LONGEST_TRAIN + 1, 65_535):
            self.refused(area, length, area.enter, 3, 1, 0, number)
        self.refused(area, (18, 0, "taken"), area.enter, 3, 1, 0, rbu.LONGEST_TRAIN)
        self.refused(area, (20, 0, "no exit"), area.leave, 2)
        for count in (0, 23, 25, 256 + 24):
            self.refused(area, wishes, area.speed, [300] * count)
            self.refused(area, wishes, area.cycle, (300,) * count)
        for size in (0, 1, rbu.FILE_SIZE - 1, rbu.FILE_SIZE + 1):
            buffer = bytearray(b"\xa5" * size)
            self.refused(area, (22, 0, "buffer"), area.write, buffer)
            self.assertEqual(buffer, b"\xa5" * size)
        # each step in its turn is done, and only then
        for due, step in enumerate((area.speed, area.request, area.grant, area.position)):
            for other in (area.speed, area.request, area.grant, area.position):
                if other != step:
                    self.refused(area, turn, other, *([300] if other == area.speed else []))
            self.assertEqual((area.due, said(step, *([300] if due == rbu.DUE_SPEED else []))), (due, (0, 0, "done")))
        self.assertEqual(area.due, rbu.DUE_SPEED)
        empty = rbu.Area(AREA_A)
        for speed in (301, 65_535):
            self.refused(empty, (19, 0, "too fast"), empty.enter, 1, 1, speed, 1)
        no_entry = rbu.Area(NO_ENTRY)
        self.refused(no_entry, (17, 0, "no entry"), no_entry.enter, 1, 2, 0, 1)

    def test_a_damaged_record(self):
        area = two_trains(6)
        area.record.trains[1].position = 5500
        unsound, buffer = (11, 0, "unsound"), bytearray(b"\xa5" * rbu.FILE_SIZE)
        self.assertIs(area.is_sound(), False)
        for call, *arguments in (
            (area.enter, 3, 1, 0, 1), (area.leave, 1), (area.speed, 300), (area.request,), (area.grant,), (area.position,),
            (area.cycle, 300), (area.report,), (area.write,), (area.write, buffer),
        ):
            self.refused(area, unsound, call, *arguments)
        self.assertEqual(buffer, b"\xa5" * rbu.FILE_SIZE)
        area.record.trains[1].position = 1730
        self.assertEqual((area.is_sound(), said(area.cycle, 300)), (True, (0, 0, "done")))
        # numbers that no sound record has are told as they are, and lead nowhere
        for route, place in ((31, 1), (255, 1), (1, 0), (1, 3), (1, 32), (1, 255)):
            area.record.trains[0].route, area.record.trains[0].place = route, place
            self.assertEqual((area.train(1).route, area.train(1).place, area.segment_of(1)), (route, place, 0))
        area.record.tables.routebytes[0], area.record.trains[0].place = 1, 2
        self.assertEqual((area.record.tables.routebytes[2], area.segment_of(1)), (3, 0))
        area.record.tables.routebytes[0], area.record.trains[0].place = 255, 31
        area.record.tables.routebytes[31] = 9
        self.assertEqual(area.segment_of(1), 9)
        area.record.trains[0].place = 32
        self.assertEqual(area.segment_of(1), 0)

    def test_refusals(self):
        self.assertTrue(issubclass(rbu.Refusal, Exception) and not issubclass(rbu.Refusal, (ValueError, TypeError)))
        refusal = rbu.Refusal(6, 62)
        for same in (refusal, copy.copy(refusal), pickle.loads(pickle.dumps(refusal))):
            self.assertEqual((same.number, same.place, same.word, str(same)), (6, 62, "segment", "6 62 segment"))
            self.assertEqual((same.args, repr(same)), ((6, 62), "Refusal(6, 62)"))
        self.assertEqual((str(rbu.Refusal(11)), str(rbu.Refusal(24)), len(rbu.WORDS)), ("11 0 unsound", "24 0 no such answer", 24))


class Told(unittest.TestCase):
    """What an area is told and what it tells."""

    def test_listing(self):
        self.assertEqual(listing(), LISTING)

    def test_fields(self):
        area = two_trains(6)
        tables = area.record.tables
        self.assertEqual((tables.segments, tables.routes, tables.gmax, tables.braking, tables.margin), (3, 2, 300, 10, 4650))
        self.assertEqual((tables.lengths[:4], tables.limits[:4]), ([6000, 5500, 8000, 0], [300, 290, 290, 0]))
        self.assertEqual((tables.next[:6], tables.previous[:6]), ([3, 0, 3, 0, 0, 0], [0, 0, 0, 0, 1, 2]))
        self.assertEqual((tables.flags[:4], tables.routebytes[:3], tables.routebytes[32:35]), ([1, 1, 2, 0], [2, 1, 3], [2, 2, 3]))
        self.assertEqual(rbu.Train._fields, ("route", "place", "position", "speed", "length", "asks", "count"))
        one = rbu.Train(route=1, place=1, position=1790, speed=290, length=1, asks=0, count=1)
        two = rbu.Train(route=2, place=1, position=1730, speed=290, length=1, asks=0, count=0)
        self.assertEqual((area.train(1), area.train(2), area.train(24)), (one, two, (0,) * 7))
        self.assertEqual(area.trains_on(), [(1, one), (2, two)])
        self.assertEqual([area.segment_of(number) for number in (1, 2, 3, 24)], [1, 2, 0, 0])
        self.assertEqual([area.allocated_to(segment) for segment in (1, 2, 3, 4, 62)], [1, 2, 2, 0, 0])
        self.assertEqual((area.report(), area.is_sound(), area.due), (rbu.Report(allocated=3, free=0), True, rbu.DUE_SPEED))
        # between request and grant the trains that ask are marked
        area = two_trains(5)
        area.speed(300)
        area.request()
        self.assertEqual((area.train(1).asks, area.train(2).asks, area.due), (1, 0, rbu.DUE_GRANT))

    def test_arguments_reach_the_core(self):
        area = rbu.Area(AREA_A)
        self.assertIsNone(area.enter(train=24, route=2, speed=130, length=777))
        self.assertEqual(area.train(24), rbu.Train(route=2, place=1, position=0, speed=130, length=777, asks=0, count=0))
        self.assertEqual((area.allocated_to(2), area.report()), (24, rbu.Report(allocated=1, free=1)))
        area.enter(3, 1, 200, 20_000)
        self.assertEqual(area.report(), rbu.Report(allocated=2, free=3))
        self.assertEqual(area.trains_on(), [(3, area.train(3)), (24, area.train(24))])
        area.speed([0] * 2 + [201] + [0] * 20 + [125])
        self.assertEqual((area.train(3).speed, area.train(24).speed), (201, 125))
        area.request()
        area.grant()
        area.position()
        self.assertEqual((area.train(3).position, area.train(24).position), (201, 125))
        # one number is the wish of every train, also as a cycle's
        area.cycle(210)
        self.assertEqual((area.train(3).speed, area.train(24).speed), (210, 210))
        area.cycle(tuple([65_535] * 24))
        self.assertEqual((area.train(3).speed, area.train(24).speed), (300, 290))

    def test_a_train_is_told_as_it_was(self):
        area = two_trains(0)
        train, record = area.train(1), area.record
        area.cycle(300)
        self.assertEqual((train.position, area.train(1).position, record.trains[0].position), (0, 300, 300))
        with self.assertRaises(AttributeError):
            train.position = 1
        with self.assertRaises(AttributeError):
            area.record = record
        with self.assertRaises(AttributeError):
            area.due = 1

    def test_a_long_train_leaves(self):
        area = rbu.Area(AREA_A)
        area.enter(1, 1, 300, 6000)
        freed = None
        for cycle in range(1, 51):
            area.cycle(300)
            under = area.segment_of(1) == 1 or area.train(1).position < 6000
            self.assertEqual((area.allocated_to(1), area.train(1).length), (1 if under else 0, 6000))
            if not under and freed is None:
                freed = cycle, area.train(1).position
        self.assertEqual((freed, area.segment_of(1), area.allocated_to(3)), ((44, 6150), 3, 1))
        self.assertEqual((area.leave(1), area.report(), area.trains_on()), (None, rbu.Report(allocated=0, free=1), []))

    def test_write(self):
        for cycles in range(7):
            area, buffer = two_trains(cycles), bytearray(b"\xa5" * rbu.FILE_SIZE)
            written = area.write()
            self.assertEqual((type(written), written), (bytes, AREA_A))
            self.assertEqual((area.write(buffer), buffer), (None, AREA_A))
        for buffer in (bytes(rbu.FILE_SIZE), memoryview(bytearray(rbu.FILE_SIZE)), [0] * rbu.FILE_SIZE, rbu.FILE_SIZE, False):
            with self.assertRaisesRegex(TypeError, "^buffer is a "):
                area.write(buffer)
        # neither a write nor a refusal that is still held keeps a bytearray from changing its size
        buffer = bytearray(rbu.FILE_SIZE)
        area.write(buffer)
        buffer.append(0)
        try:
            area.write(buffer)
        except rbu.Refusal as refusal:
            del buffer[rbu.FILE_SIZE :]
            self.assertEqual((refusal.number, area.write(buffer), buffer), (22, None, AREA_A))
        else:
            self.fail("a buffer of 2,561 bytes was taken")

    def test_two_areas(self):
        one, two = two_trains(2), two_trains(2)
        before = values(two.record)
        one.cycle(300)
        one.speed(300)
        one.record.allocations[0] = 7
        self.assertEqual(values(two.record), before)
        self.assertEqual((one.is_sound(), two.is_sound(), one.due, two.due), (False, True, 1, 0))
        self.assertNotEqual(values(one.record), before)
        # a refused file makes no area, and touches none
        self.assertEqual((said(rbu.Area, b""), values(two.record)), ((1, 0, "size"), before))
        for other in (copy.copy(two), copy.deepcopy(two), pickle.loads(pickle.dumps(two))):
            self.assertEqual(values(other.record), before)
            other.cycle(300)
            self.assertEqual((other.train(1).position, values(two.record)), (900, before))

    def test_braking_distance(self):
        for rate, speed, distance in (
            (10, 5, 5), (10, 10, 10), (10, 11, 12), (10, 295, 4500), (10, 300, 4650), (300, 300, 300), (1, 1000, 500_500),
            (1, 2000, 2_001_000), (10, 0, 0), (0, 7, 0), (1, 65_535, 2_147_450_880), (65_535, 65_535, 65_535),
        ):
            self.assertEqual(rbu.braking_distance(rate, speed), distance, f"rate {rate}, speed {speed}")

    def test_example(self):
        examples = doctest.DocTestParser().get_doctest(rbu.__doc__, {}, "rbu", rbu.__file__, 0)
        here = os.getcwd()
        os.chdir(ROOT)
        try:
            result = doctest.DocTestRunner().run(examples, out=sys.stderr.write)
        finally:
            os.chdir(here)
        self.assertEqual((result.failed, result.attempted), (0, 9))

    def test_random_calls(self):
        seed = 1
        chance, area = random.Random(seed), rbu.Area(AREA_A)
        done, refused, most = set(), set(), 0
        for number in range(1000):
            kind = chance.randrange(10)
            if kind == 0:
                name, arguments = "enter", [chance.randrange(1, 6), chance.randrange(1, 4), chance.randrange(320), chance.randrange(9000)]
            elif kind == 1:
                name, arguments = "leave", [chance.randrange(1, 6)]
            else:
                step = chance.randrange(4) if kind == 2 else area.due
                name = ("speed", "request", "grant", "position")[step]
                arguments = [[chance.choice((0, 150, 300, 65_535)) for _ in range(24)]] if name == "speed" else []
            try:
                getattr(area, name)(*arguments)
                done.add(name)
            except rbu.Refusal:
                refused.add(name)
            most = max(most, len(area.trains_on()))
            with self.subTest(seed=seed, call=number, name=name, arguments=arguments):
                self.is_sane(area)
        every = {"enter", "leave", "speed", "request", "grant", "position"}
        self.assertEqual((done, refused), (every, every))
        self.assertGreaterEqual(most, 2)

    def is_sane(self, area):
        self.assertIs(area.is_sound(), True)
        owners = {}
        for number, train in area.trains_on():
            segments = segments_under(area.record.tables, train)
            self.assertEqual(area.segment_of(number), segments[0])
            for segment in segments:
                self.assertNotIn(segment, owners, f"trains {number} and {owners.get(segment)} are on segment {segment}")
                self.assertEqual(area.allocated_to(segment), number)
                owners[segment] = number
        allocations = [area.allocated_to(segment) for segment in range(1, 63)]
        free = [segment for segment in range(1, area.record.tables.segments + 1) if not allocations[segment - 1]]
        self.assertEqual(area.report(), rbu.Report(sum(map(bool, allocations)), min(free, default=0)))


class Seven:
    def __index__(self):
        return 7


class Numbers(unittest.TestCase):
    """No number is cut on its way to the core, and nothing else is taken for a number."""

    OUT_OF_RANGE = (65_536, 65_537, 65_536 + 24, -1, -65_535, 2**32 + 1, 2**64 + 1)
    NO_NUMBER = (True, False, 1.0, 1.5, "1", b"1", None, 1j, [1], Seven)

    def raises(self, error, name, call, arguments):
        with self.assertRaises(error, msg=f"{call.__name__}{arguments}") as raised:
            call(**arguments)
        self.assertTrue(str(raised.exception).startswith(f"{name} is "), f"{call.__name__}{arguments}: {raised.exception}")

    def test_every_argument(self):
        area = two_trains(1)
        before = values(area.record)
        for call, arguments, out_of_range in (
            (area.enter, {"train": 3, "route": 1, "speed": 0, "length": 1}, ()),
            (area.leave, {"train": 1}, ()),
            (area.train, {"number": 1}, (0, 25, 65_535)),
            (area.segment_of, {"number": 1}, (0, 25, 65_535)),
            (area.allocated_to, {"segment": 1}, (0, 63, 65_535)),
            (rbu.braking_distance, {"rate": 10, "speed": 300}, ()),
        ):
            for name in arguments:
                for value in self.OUT_OF_RANGE + out_of_range:
                    self.raises(ValueError, name, call, {**arguments, name: value})
                for value in self.NO_NUMBER:
                    self.raises(TypeError, name, call, {**arguments, name: value})
        self.assertEqual(values(area.record), before)

    def test_every_wish(self):
        area = two_trains(1)
        before = values(area.record)
        for call in (area.speed, area.cycle):
            for value in self.OUT_OF_RANGE:
                self.raises(ValueError, "wishes", call, {"wishes": value})
            no_list = (True, 1.5, "1", "", "1" * 24, b"1" * 24, None, 1j, {train: 300 for train in range(24)}, set(range(24)), Seven)
            for value in no_list + (range(24), iter([300] * 24)):
                self.raises(TypeError, "wishes", call, {"wishes": value})
            for place in range(24):
                for wrong, error in ((self.OUT_OF_RANGE, ValueError), (self.NO_NUMBER, TypeError)):
                    for value in wrong:
                        wishes = [300] * 24
                        wishes[place] = value
                        self.raises(error, f"wishes[{place}]", call, {"wishes": wishes})
        self.assertEqual(values(area.record), before)

    def test_whole_numbers_of_other_types(self):
        area = rbu.Area(AREA_A)
        area.enter(Seven(), 1, Seven(), Seven())
        self.assertEqual(area.train(Seven())[:5], (1, 1, 0, 7, 7))
        self.assertEqual((area.segment_of(Seven()), area.allocated_to(Seven()), rbu.braking_distance(Seven(), Seven())), (1, 0, 7))
        area.speed(Seven())
        self.assertEqual(area.train(7).speed, 7)


class Imports(unittest.TestCase):
    """Where the library is looked for, and which ones are not taken."""

    def setUp(self):
        temporary = tempfile.TemporaryDirectory()
        self.addCleanup(temporary.cleanup)
        # two folders deep, so that ../../lib is within it too
        self.root = pathlib.Path(temporary.name).resolve() / "share"
        self.folder = self.root / "rbu"
        self.folder.mkdir(parents=True)
        self.beside = self.root / "target" / "librbu.so"
        self.installed = self.root.parent / "lib" / "librbu.so"
        self.copied()

    def copied(self, *changes):
        """Copies rbu.py to the folder, with some of its text changed."""
        text = pathlib.Path(rbu.__file__).read_text()
        for old, new in changes:
            self.assertEqual(text.count(old), 1, f"{old} stands once in rbu.py")
            text = text.replace(old, new)
        (self.folder / "rbu.py").write_text(text)

    def put(self, path):
        """Puts the library at a path."""
        path.parent.mkdir(parents=True, exist_ok=True)
        shutil.copy(rbu.LIBRARY, path)
        return path

    def imported(self, library):
        """What a new Python says that imports the copy: the library that was taken, or the last line of the error."""
        environment = {name: value for name, value in os.environ.items() if name != "RBU_LIBRARY"}
        environment["PYTHONPATH"] = str(self.folder)
        if library is not None:
            environment["RBU_LIBRARY"] = str(library)
        program = [sys.executable, "-B", "-c", "import rbu; rbu.braking_distance(1, 1); print(rbu.LIBRARY)"]
        ended = subprocess.run(program, cwd=self.folder, env=environment, capture_output=True, text=True, timeout=120)
        if ended.returncode == 0:
            return ended.stdout.strip()
        return ended.stderr.strip().splitlines()[-1]

    def test_this_one(self):
        self.assertEqual(pathlib.Path(rbu.__file__).resolve(), FOLDER / "rbu.py")
        self.assertTrue(all(hasattr(rbu, name) for name in rbu.__all__))

    def test_places(self):
        says = self.imported(None)
        self.assertTrue(says.startswith("ImportError: librbu.so was not found; looked at "), says)
        self.assertIn(f"{self.beside} and {self.installed}", says)
        self.put(self.installed)
        self.assertEqual(self.imported(None), str(self.installed))
        self.put(self.beside)
        self.assertEqual(self.imported(None), str(self.beside))
        self.assertEqual(self.imported(""), str(self.beside))
        named = self.put(self.folder / "named.so")
        self.assertEqual((self.imported(named), self.imported("named.so")), (str(named), str(named)))

    def test_rbu_library_alone(self):
        # a good library stands at each other place
        self.put(self.beside)
        self.put(self.installed)
        missing, text = self.folder / "missing.so", self.folder / "text.so"
        text.write_text("no library\n")
        self.assertEqual(self.imported(missing), f"ImportError: RBU_LIBRARY names {missing}, which is no file")
        self.assertEqual(self.imported(self.folder), f"ImportError: RBU_LIBRARY names {self.folder}, which is no file")
        self.assertTrue(self.imported(text).startswith(f"ImportError: {text} cannot be loaded: "), self.imported(text))
        # any library but ours that this Python has loaded
        with open("/proc/self/maps") as maps:
            loaded = [line.split(maxsplit=5)[5].strip() for line in maps if ".so" in line and "librbu" not in line]
        other = next(path for path in loaded if os.path.isfile(path))
        says = self.imported(other)
        self.assertTrue(says.startswith(f"ImportError: {other} lacks rbu_start, rbu_enter, "), says)
        # one that cannot be loaded is not passed over either
        self.beside.write_text("no library\n")
        self.assertTrue(self.imported(None).startswith(f"ImportError: {self.beside} cannot be loaded: "), self.imported(None))

    def test_a_function_that_is_lacking(self):
        self.copied(('("rbu_is_sound", ', '("rbu_is_round", '))
        self.assertEqual(self.imported(rbu.LIBRARY), f"ImportError: {rbu.LIBRARY} lacks rbu_is_round")

    def test_another_record_here(self):
        self.copied(('("allocations", _u8 * SEGMENTS)', '("allocations", _u16 * SEGMENTS)'))
        size = "ImportError: the record has {} bytes aligned to {} here, and must have {} aligned to {}"
        self.assertEqual(self.imported(rbu.LIBRARY), size.format(2168, 4, 2108, 4))
        self.copied(('("allocations", _u8 * SEGMENTS)', '("allocations", _u8 * 30)'))
        self.assertEqual(self.imported(rbu.LIBRARY), size.format(2076, 4, 2108, 4))
        self.copied(("RECORD_ALIGNMENT = 4", "RECORD_ALIGNMENT = 8"))
        self.assertEqual(self.imported(rbu.LIBRARY), size.format(2108, 4, 2108, 8))

    def test_another_record_in_the_library(self):
        # seen from a file with a smaller record, the library's is greater
        self.copied(("TRAINS = 24", "TRAINS = 23"), ("RECORD_SIZE = 2108", "RECORD_SIZE = 2092"))
        says = f"ImportError: {rbu.LIBRARY} writes beyond the 2092 bytes of a record: its record is another"
        self.assertEqual(self.imported(rbu.LIBRARY), says)
        says = f"ImportError: {rbu.LIBRARY} has another record than this file, or other rules: the run at import goes otherwise"
        # and seen from one with a greater record, smaller
        self.copied(("TRAINS = 24", "TRAINS = 25"), ("RECORD_SIZE = 2108", "RECORD_SIZE = 2124"))
        self.assertEqual(self.imported(rbu.LIBRARY), says)
        # the same size, and fields at other places
        for changes in (
            [('("speed", _u16)', '("SPEED", _u16)'), ('("length", _u16)', '("speed", _u16)'), ('("SPEED", _u16)', '("length", _u16)')],
            [('("count", _u16)', '("COUNT", _u16)'), ('("length", _u16)', '("count", _u16)'), ('("COUNT", _u16)', '("length", _u16)')],
            [('("route", _u8)', '("ROUTE", _u8)'), ('("asks", _u8)', '("route", _u8)'), ('("ROUTE", _u8)', '("asks", _u8)')],
            [('("gmax", _u16)', '("GMAX", _u16)'), ('("braking", _u16)', '("gmax", _u16)'), ('("GMAX", _u16)', '("braking", _u16)')],
            [('("next", ', '("NEXT", '), ('("previous", ', '("next", '), ('("NEXT", ', '("previous", ')],
            [('("due", _u8)', '("due", _u32)')],
            [('("asks", _u8)', '("asks", _u32)')],
        ):
            self.copied(*changes)
            self.assertEqual(self.imported(rbu.LIBRARY), says, f"{changes}")


def main():
    sys.stdout.write(listing())
    sys.stdout.flush()
    suite = unittest.defaultTestLoader.loadTestsFromModule(sys.modules[__name__])
    result = unittest.TextTestRunner(stream=sys.stderr, verbosity=2).run(suite)
    if MET != set(range(24)):
        print(f"answers not met: {sorted(set(range(24)) - MET)}; met, and none of ours: {sorted(MET - set(range(24)))}", file=sys.stderr)
        return 1
    return 0 if result.wasSuccessful() and result.testsRun else 1


if __name__ == "__main__":
    sys.exit(main())
