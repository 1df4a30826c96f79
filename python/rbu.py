"""The core of the radio block unit for test rigs in Python.

This file calls librbu.so, the shared library of the core, by ctypes. It needs Python 3.9 or later and the standard library alone.

An Area is started from an area file of 2,560 bytes. The six calls are enter, leave, speed, request, grant and position; cycle is the
four steps from speed to position. A call that is refused raises a Refusal and leaves the area as it was. Run this from the root of
the repository with PYTHONPATH=python:

    >>> import rbu
    >>> with open("crates/area_a/stdin", "rb") as file:
    ...     area = rbu.Area(file.read())
    >>> area.enter(train=1, route=1, speed=250, length=6000)
    >>> area.cycle(300)
    >>> area.train(1)
    Train(route=1, place=1, position=300, speed=300, length=6000, asks=0, count=0)
    >>> area.segment_of(1), area.allocated_to(1), area.allocated_to(2)
    (1, 1, 0)
    >>> area.report()
    Report(allocated=1, free=2)
    >>> area.leave(1)
    Traceback (most recent call last):
        ...
    rbu.Refusal: 20 0 no exit
    >>> try:
    ...     area.enter(2, 1, 250, 6000)
    ... except rbu.Refusal as refusal:
    ...     print(refusal.number, refusal.word)
    18 taken

Lengths and positions are decimetres, speeds are decimetres per cycle. docs/RULES.md has the rules, docs/FORMATS.md the file and the
answers, include/rbu.h the contract of each function that is called here.

Numbers. The core tests the numbers 0 to 65,535 whole: train 257 is refused. Any other number is a ValueError here, since ctypes would
cut it: 65,537 would be train 1. A bool, a float, and anything else that is no whole number is a TypeError.

Threads. Use an area in one thread at a time: ctypes lets other threads run during a call. Two areas share nothing, so two threads may
use two areas at once.

The library. Where the environment variable RBU_LIBRARY is set, and not empty, it names the library's file, and no other is tried.
Otherwise the first of these is taken, seen from the folder of this file: ../target/librbu.so (a checkout) and ../../lib/librbu.so (an
installation). LIBRARY is the one that was taken.

What the import checks. It fails with an ImportError where the library is not found, cannot be loaded or lacks a function, and where
Record, the record as this file has it, is not 2,108 bytes aligned to 4. No function of the library tells how its own record is laid
out. So a short run is tried, on a record filled with a pattern and followed by 4,096 bytes of that pattern: an area with every segment
and every route is started, two trains enter, one comes near its segment's end, asks and gets nothing. Each field must read as the
rules have it, and the bytes after the record must be as they were. A library whose record has another size or another order of fields
is found in this way, unless what differs plays no part in that run. It does not show that the library is the proved one.

What is proved is proved of the library's functions, for a record that was started and that nothing but the calls has written. This file
is tested, not proved.
"""

import ctypes
import operator
import os
import struct
import typing

__all__ = [
    "Area", "Refusal", "Report", "Train", "Record", "Tables", "RecordTrain", "load", "braking_distance", "WORDS", "LIBRARY",
    "FILE_SIZE", "RECORD_SIZE", "RECORD_ALIGNMENT", "SEGMENTS", "ROUTES", "TRAINS", "FASTEST", "LONGEST", "LONGEST_TRAIN",
    "DUE_SPEED", "DUE_REQUEST", "DUE_GRANT", "DUE_POSITION",
]

# The bytes of an area file; the bytes of a record, and what its address is a multiple of.
FILE_SIZE = 2560
RECORD_SIZE = 2108
RECORD_ALIGNMENT = 4

# Segments, routes and trains of an area, at the most; wishes of a speed step.
SEGMENTS = 62
ROUTES = 30
TRAINS = 24

# At the most: `gmax`, in decimetres per cycle; `d` and the length of a segment, and the length of a train, in decimetres.
FASTEST = 2000
LONGEST = 4_000_000
LONGEST_TRAIN = 20_000

# The steps of a cycle, as Area.due tells them.
DUE_SPEED, DUE_REQUEST, DUE_GRANT, DUE_POSITION = range(4)

# ---- answers

# The words for the answers, by number.
WORDS = (
    "done",
    "size",
    "damaged",
    "misfiled",
    "header",
    "margin",
    "segment",
    "joint",
    "order",
    "drop",
    "route",
    "unsound",
    "turn",
    "train",
    "already on",
    "not on",
    "route number",
    "no entry",
    "taken",
    "too fast",
    "no exit",
    "wishes",
    "buffer",
    "length",
)


class Refusal(Exception):
    """An answer other than done: of a file (1 to 10) or of a call (11 to 23).

    number and place are those of docs/FORMATS.md, word is the word for the number; str() is "NUMBER PLACE WORD". The place is 0 unless
    a file was refused and its rule names a block, a record, a segment or a route.
    """

    def __init__(self, number, place=0):
        super().__init__(number, place)
        self.number = number
        self.place = place

    @property
    def word(self):
        return WORDS[self.number] if self.number < len(WORDS) else "no such answer"

    def __str__(self):
        return f"{self.number} {self.place} {self.word}"


class Report(typing.NamedTuple):
    """How many segments are allocated, and the least free segment, 0 if there is none."""

    allocated: int
    free: int


class Train(typing.NamedTuple):
    """A train as it was when Area.train told it; later calls do not change this.

    Route and place in it are counted from 1; route 0 is a train off, which is all zero. Place and position are those of its front. asks
    is 1 between request and grant where the train asks for its next segment, otherwise 0. count is at how many grant steps it has asked
    and got nothing since it entered or was last granted a segment, 65,535 at the most.
    """

    route: int
    place: int
    position: int
    speed: int
    length: int
    asks: int
    count: int


# ---- the record: struct rbu_area of include/rbu.h

_u8, _u16, _u32 = ctypes.c_uint8, ctypes.c_uint16, ctypes.c_uint32


class RecordTrain(ctypes.Structure):
    """A train of a record: struct rbu_train."""

    _fields_ = [
        ("route", _u8),
        ("place", _u8),
        ("count", _u16),
        ("position", _u32),
        ("speed", _u16),
        ("length", _u16),
        ("asks", _u8),
    ]


class Tables(ctypes.Structure):
    """The tables of the file: struct rbu_tables.

    N, R, `gmax`, `b` (braking) and `d` (margin). Segment s has lengths[s - 1], limits[s - 1], flags[s - 1] (1 entry, 2 exit, 3 both), and
    its next links at next[2 * s - 2] and next[2 * s - 1], its previous links likewise, 0 for none. Route r has its count at
    routebytes[32 * (r - 1)], and the segment at place p of it at routebytes[32 * (r - 1) + p].
    """

    _fields_ = [
        ("segments", _u8),
        ("routes", _u8),
        ("gmax", _u16),
        ("braking", _u16),
        ("margin", _u32),
        ("lengths", _u32 * SEGMENTS),
        ("limits", _u16 * SEGMENTS),
        ("next", _u8 * (2 * SEGMENTS)),
        ("previous", _u8 * (2 * SEGMENTS)),
        ("flags", _u8 * SEGMENTS),
        ("routebytes", _u8 * (32 * ROUTES)),
    ]


class Record(ctypes.Structure):
    """The record of an area: struct rbu_area.

    Segment s has the allocation allocations[s - 1], 0 or the number of the train that it is allocated to; train t is trains[t - 1].
    Padding may hold anything: compare two records by their fields.
    """

    _fields_ = [
        ("tables", Tables),
        ("allocations", _u8 * SEGMENTS),
        ("trains", RecordTrain * TRAINS),
        ("due", _u8),
    ]


if (ctypes.sizeof(Record), ctypes.alignment(Record)) != (RECORD_SIZE, RECORD_ALIGNMENT):
    raise ImportError(
        f"the record has {ctypes.sizeof(Record)} bytes aligned to {ctypes.alignment(Record)} here, "
        f"and must have {RECORD_SIZE} aligned to {RECORD_ALIGNMENT}"
    )

# ---- the library

_area = ctypes.POINTER(Record)
_FUNCTIONS = [
    ("rbu_start", _u8, [_area, ctypes.c_char_p, ctypes.c_size_t, ctypes.POINTER(_u16)]),
    ("rbu_enter", _u8, [_area, _u16, _u16, _u16, _u16]),
    ("rbu_leave", _u8, [_area, _u16]),
    ("rbu_speed", _u8, [_area, ctypes.POINTER(_u16), ctypes.c_size_t]),
    ("rbu_request", _u8, [_area]),
    ("rbu_grant", _u8, [_area]),
    ("rbu_position", _u8, [_area]),
    ("rbu_report", _u8, [_area, ctypes.POINTER(_u8), ctypes.POINTER(_u8)]),
    ("rbu_is_sound", ctypes.c_bool, [_area]),
    ("rbu_write", _u8, [_area, ctypes.POINTER(_u8), ctypes.c_size_t]),
    ("rbu_load", _u8, [ctypes.c_char_p, ctypes.c_size_t, ctypes.POINTER(_u16)]),
    ("rbu_braking_distance", _u32, [_u16, _u16]),
]


def _find():
    """The library's path."""
    named = os.environ.get("RBU_LIBRARY")
    if named:
        # a path, never a name that the system's own search would look up
        path = os.path.abspath(named)
        if not os.path.isfile(path):
            raise ImportError(f"RBU_LIBRARY names {path}, which is no file")
        return path
    folder = os.path.dirname(os.path.realpath(__file__))
    places = [os.path.normpath(os.path.join(folder, *there, "librbu.so")) for there in (("..", "target"), ("..", "..", "lib"))]
    for path in places:
        if os.path.isfile(path):
            return path
    raise ImportError(f"librbu.so was not found; looked at {' and '.join(places)}; RBU_LIBRARY may name it")


def _open(path):
    """The library, with the types of its functions set."""
    try:
        library = ctypes.CDLL(path)
    except OSError as error:
        raise ImportError(f"{path} cannot be loaded: {error}") from error
    lacking = [name for name, _, _ in _FUNCTIONS if not hasattr(library, name)]
    if lacking:
        raise ImportError(f"{path} lacks {', '.join(lacking)}")
    for name, result, arguments in _FUNCTIONS:
        function = getattr(library, name)
        function.restype, function.argtypes = result, arguments
    return library


LIBRARY = _find()
_library = _open(LIBRARY)

# ---- the trial at import


class _Guarded(ctypes.Structure):
    # far more than a record is likely to grow by, since what is written beyond this is written anywhere
    _fields_ = [("record", Record), ("guard", _u8 * 4096)]


def _values(part):
    """The fields of a structure or the entries of an array as a tuple, without padding."""
    if isinstance(part, ctypes.Structure):
        return tuple(_values(getattr(part, name)) for name, _ in part._fields_)
    if isinstance(part, ctypes.Array):
        return tuple(_values(entry) for entry in part)
    return part


def _full_tables():
    """Tables that meet the rules, with every segment and every route, and with fields that differ from each other."""
    tables = Tables(segments=SEGMENTS, routes=ROUTES, gmax=500, braking=400, margin=70_000)
    for s in range(1, SEGMENTS + 1):
        tables.lengths[s - 1] = 70_501 + s
        tables.limits[s - 1] = 400 + s
        tables.next[2 * s - 2 : 2 * s] = [t if t <= SEGMENTS else 0 for t in (s + 1, s + 2)]
        tables.previous[2 * s - 2 : 2 * s] = [max(t, 0) for t in (s - 1, s - 2)]
        tables.flags[s - 1] = 3 if s % 2 else 1
    for r in range(1, ROUTES + 1):
        tables.routebytes[32 * (r - 1) : 32 * r] = [31, *range(r, r + 31)]
    return tables


def _file_of(tables):
    """The area file of these tables (docs/FORMATS.md)."""
    blocks = [bytearray(512) for _ in range(5)]
    header = (1, tables.segments, tables.routes, 0, tables.gmax, tables.braking, tables.margin)
    struct.pack_into("<4B2HI", blocks[0], 0, *header)
    for i in range(SEGMENTS):
        links = tables.next[2 * i : 2 * i + 2] + tables.previous[2 * i : 2 * i + 2]
        struct.pack_into("<IH5B", blocks[1 + i // 31], 16 * (i % 31), tables.lengths[i], tables.limits[i], *links, tables.flags[i])
    blocks[3][:480] = bytes(tables.routebytes[:480])
    blocks[4][:480] = bytes(tables.routebytes[480:])
    for number, (kind, block) in enumerate(zip((1, 2, 2, 3, 3), blocks)):
        block[496:498] = kind, number
        first = second = 0
        for byte in block[:510]:
            first = (first + byte) % 255
            second = (second + first) % 255
        block[510:] = first, second
    return b"".join(blocks)


def _try_layout():
    """Raises an ImportError where the library's record is not laid out as Record is."""
    tried = _Guarded()
    ctypes.memset(ctypes.byref(tried), 0xA5, ctypes.sizeof(tried))
    untouched = bytes(tried.guard)
    record, expected = tried.record, Record(tables=_full_tables())

    def compare(*answers):
        if bytes(tried.guard) != untouched:
            raise ImportError(f"{LIBRARY} writes beyond the {RECORD_SIZE} bytes of a record: its record is another")
        if any(answers) or _values(record) != _values(expected):
            raise ImportError(f"{LIBRARY} has another record than this file, or other rules: the run at import goes otherwise")

    file, place = _file_of(expected.tables), _u16()
    compare(_library.rbu_start(record, file, len(file), place))

    # a start may have cleared the padding: the last three bytes of each train and of the record, which no field may reach into
    for after in (*(Record.trains.offset + ctypes.sizeof(RecordTrain) * t for t in range(1, TRAINS + 1)), RECORD_SIZE):
        ctypes.memset(ctypes.addressof(record) + after - 3, 0xA5, 3)
    compare()

    # train 23 stands on segment 2, the next of train 24
    expected.trains[23] = RecordTrain(route=1, place=1, speed=401, length=20_000)
    expected.trains[22] = RecordTrain(route=2, place=1, length=300)
    expected.allocations[:2] = [24, 23]
    compare(_library.rbu_enter(record, 24, 1, 401, 20_000), _library.rbu_enter(record, 23, 2, 0, 300))

    # two cycles bring train 24 near; in the third it brakes, asks and gets nothing
    wishes = (_u16 * TRAINS)(*[0] * 23, 401)
    steps = [lambda r: _library.rbu_speed(r, wishes, TRAINS), _library.rbu_request, _library.rbu_grant, _library.rbu_position]
    answers = [step(record) for step in steps * 2 + steps[:2]]
    expected.trains[23] = RecordTrain(route=1, place=1, position=802, speed=1, length=20_000, asks=1)
    expected.due = DUE_GRANT
    compare(*answers)
    expected.trains[23].asks, expected.trains[23].count = 0, 1
    expected.due = DUE_POSITION
    compare(_library.rbu_grant(record))


_try_layout()

# ---- arguments and answers


def _number(value, name, least=0, most=65_535):
    """The value as a number that the library takes whole."""
    # a bool would pass as 0 or 1, but whoever hands one over has mixed up arguments
    if isinstance(value, bool):
        raise TypeError(f"{name} is a bool; it must be a whole number")
    try:
        number = operator.index(value)
    except TypeError:
        raise TypeError(f"{name} is a {type(value).__name__}; it must be a whole number") from None
    if not least <= number <= most:
        raise ValueError(f"{name} is {number}; it must be {least} to {most}")
    return number


def _bytes(file):
    """The bytes of a file that is handed over."""
    # bytes() alone would take a number for that many zeros, and a list of numbers too
    try:
        return memoryview(file).tobytes()
    except TypeError:
        raise TypeError(f"file is a {type(file).__name__}; it must be bytes-like") from None


def _answer(number, place=0):
    """Nothing for done, otherwise the refusal is raised."""
    if number:
        raise Refusal(number, place)


# ---- a running unit: one area, one call at a time


class Area:
    """An area, started from an area file: bytes, a bytearray, or anything else that is bytes-like.

    A refused file raises the Refusal that names the rule, 1 to 10. A refused call raises too, and changes nothing; beside the answers
    that each call names it is 11 where the record was damaged (see record). Use an area in one thread at a time.
    """

    def __init__(self, file):
        file, place = _bytes(file), _u16()
        record = Record()
        _answer(_library.rbu_start(record, file, len(file), place), place.value)
        self._record = record

    def __copy__(self):
        """An area of its own with the same contents: copy.copy(area)."""
        copied = type(self).__new__(type(self))
        copied.__dict__.update(self.__dict__, _record=Record.from_buffer_copy(self._record))
        return copied

    # -- the six calls

    def enter(self, train, route, speed, length):
        """The train's front enters at the start of the route. Its length is 1 to 20,000 decimetres. Refused with 13, 14, 16 to 19, 23."""
        train, route = _number(train, "train"), _number(route, "route")
        speed, length = _number(speed, "speed"), _number(length, "length")
        _answer(_library.rbu_enter(self._record, train, route, speed, length))

    def leave(self, train):
        """The train goes off, when the whole of it has gone by its exit: all that is allocated to it is freed. Refused with 13, 15, 20."""
        _answer(_library.rbu_leave(self._record, _number(train, "train")))

    def speed(self, wishes):
        """The speed step. wishes is a list or a tuple, the wish of train 1 first, or one number for all 24 trains; those of trains off are
        ignored. Refused with 12, and with 21 where the list has not 24 wishes."""
        if isinstance(wishes, (list, tuple)):
            wishes = [_number(wish, f"wishes[{i}]") for i, wish in enumerate(wishes)]
        elif isinstance(wishes, bool) or not hasattr(type(wishes), "__index__"):
            raise TypeError(f"wishes is a {type(wishes).__name__}; it must be a list or a tuple of wishes, or one number for all trains")
        else:
            wishes = [_number(wishes, "wishes")] * TRAINS
        _answer(_library.rbu_speed(self._record, (_u16 * len(wishes))(*wishes), len(wishes)))

    def request(self):
        """The request step: trains near their segment's end ask for their next one. Refused with 12."""
        _answer(_library.rbu_request(self._record))

    def grant(self):
        """The grant step: of the trains that ask for a free segment, the one with the highest count gets it, of equal counts the one with
        the higher number. Refused with 12."""
        _answer(_library.rbu_grant(self._record))

    def position(self):
        """The position step: trains run on by their speeds, and a segment is freed once the rear is at its end or past it. Refused with
        12."""
        _answer(_library.rbu_position(self._record))

    def cycle(self, wishes):
        """The four steps speed, request, grant and position. A refusal ends it; the steps before that one are done."""
        self.speed(wishes)
        self.request()
        self.grant()
        self.position()

    # -- what an area tells

    def report(self):
        """How many segments are allocated, and the least free one: a Report."""
        allocated, free = _u8(), _u8()
        _answer(_library.rbu_report(self._record, allocated, free))
        return Report(allocated.value, free.value)

    def write(self, buffer=None):
        """Writes the tables as an area file; trains are not written. It is the file that the area was started from, byte for byte.

        Without a buffer the file is returned as bytes. With one, a bytearray, it is written there and None is returned; one that has not
        2,560 bytes is refused with 22 and is left as it was.
        """
        if buffer is None:
            written = (_u8 * FILE_SIZE)()
            _answer(_library.rbu_write(self._record, written, FILE_SIZE))
            return bytes(written)
        if not isinstance(buffer, bytearray):
            raise TypeError(f"buffer is a {type(buffer).__name__}; it must be a bytearray")
        lent = (_u8 * len(buffer)).from_buffer(buffer)
        number = _library.rbu_write(self._record, lent, len(buffer))
        # a refusal's traceback would keep it, and a bytearray that is lent cannot change its size
        del lent
        _answer(number)
        return None

    def is_sound(self):
        """Every condition of a sound record is met, as in any area of which nothing but the calls has written the record."""
        return _library.rbu_is_sound(self._record)

    @property
    def due(self):
        """The step due: DUE_SPEED, DUE_REQUEST, DUE_GRANT or DUE_POSITION, 0 to 3."""
        return self._record.due

    def train(self, number):
        """The train with this number, 1 to 24, as it is now: a Train. A train off has route 0."""
        fields = self._record.trains[_number(number, "number", 1, TRAINS) - 1]
        return Train(*(getattr(fields, name) for name in Train._fields))

    def trains_on(self):
        """The trains on, as a list of (number, Train)."""
        trains = [(number, self.train(number)) for number in range(1, TRAINS + 1)]
        return [(number, train) for number, train in trains if train.route]

    def segment_of(self, number):
        """The segment that the front of the train with this number, 1 to 24, is on; 0 where the train is off."""
        train = self.train(number)
        # a damaged record may have any numbers here
        if not 1 <= train.route <= ROUTES:
            return 0
        count, *segments = self._record.tables.routebytes[32 * (train.route - 1) : 32 * train.route]
        return segments[train.place - 1] if 1 <= train.place <= min(count, 31) else 0

    def allocated_to(self, segment):
        """The number of the train that the segment, 1 to 62, is allocated to; 0 for none."""
        return self._record.allocations[_number(segment, "segment", 1, SEGMENTS) - 1]

    @property
    def record(self):
        """The record itself, a Record: what is read is the present state, and its fields may be written.

        Writing them is for tests of what the unit does with a damaged record: it is refused with 11 where it is unsound, otherwise calls
        go on from it. Of an area whose record was written like this the claim, what has been proved, no longer speaks. ctypes cuts a number
        that is too great for its field.
        """
        return self._record


# ---- files and braking


def load(file):
    """Load's answer to an area file: None for done, otherwise its Refusal, 1 to 10, is raised."""
    file, place = _bytes(file), _u16()
    _answer(_library.rbu_load(file, len(file), place), place.value)


def braking_distance(rate, speed):
    """The way run until standstill, in decimetres, from this speed, at full braking that takes rate off it each cycle; 0 at a rate of 0."""
    return _library.rbu_braking_distance(_number(rate, "rate"), _number(speed, "speed"))
