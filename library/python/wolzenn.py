"""The logs and write batches of RocksDB and LevelDB, read and written by proved code.

    import wolzenn

    with open("000012.log", "rb") as file:
        log = file.read()
    for record in wolzenn.Records(log):
        for op in wolzenn.operations(record.bytes):
            print(record.start, op.kind.name, op.key, op.value)

    with wolzenn.recover(log) as recovery:
        print(dict(((family, key), value) for family, key, value in recovery))
        print("ended at", recovery.end)

The code is that of the repository's `library/wolzenn.h`, which is proved; this module calls the shared library, and
isn't proved itself. It uses `libwolzenn.so.3` in the folder that WOLZENN_LIB names. If that isn't set it looks in
`../out` and `../lib`, from this file's folder, and then where the system looks for libraries.

Bytes may be any object that gives them, as `bytes`, `bytearray`, `memoryview` and `mmap` do, and aren't copied. Nobody
may change them during a call, nor those of a log while its `Records` are read. `number` is the log's number where its
fragments have one (RocksDB's `recycle_log_file_num`), and 0 where they have none, as in LevelDB's logs and most of
RocksDB's.

A batch, a recovery, records and a scan are used on the thread that made them: elsewhere a call raises `RuntimeError`.
Each may be closed, or used in a `with`; otherwise that is done once nobody uses it any more. None can be copied or
pickled: `Recovery.share` makes another one.

If there is no memory, `MemoryError` is raised; whatever else isn't done raises a subclass of `Error`.
"""

import ctypes
import enum
import os
import threading
from typing import NamedTuple

__all__ = [
    *("Batch", "BatchHead", "Damage", "End", "Error", "Kind", "LogWriter", "Mode", "NoBatch", "Op", "Operation"),
    *("Pair", "PastEnd", "Place", "Record", "Records", "Recovery", "Scan", "Tag", "TooLarge", "Unread", "Why"),
    *("all_operations", "batch_head", "crc32c", "crc32c_mask", "is_proved", "operations", "read_batch"),
    *("record_bytes", "recover", "BATCH_HEADER_LEN", "BLOCK_LEN", "MAX_BATCH"),
]

BLOCK_LEN = 32_768
"""The bytes of a log's block."""

BATCH_HEADER_LEN = 12
"""The bytes of a batch's header."""

MAX_BATCH = 16_777_216
"""The most bytes of a `Batch`."""

_VERSION = 8

# The number of the binary interface, which the shared library's name has.
_ABI = 3


class Why(enum.IntEnum):
    """Why reading or recovery ended, or why bytes are no batch. As a string it is the word of the
    repository's `docs/RECOVERY.md`."""

    CLEAN = 1
    SHORT_HEADER = 2
    ZEROS = 3
    BAD_LENGTH = 4
    BAD_TYPE = 5
    BAD_CHECKSUM = 6
    BAD_TRAILER = 7
    OLD_LOG = 8
    BAD_ORDER = 9
    UNFINISHED = 10
    SHORT = 11
    BAD_VARINT = 12
    TAG = 13
    COUNT = 14
    ORDER = 15
    HIGH = 16

    def __str__(self):
        return self.name.replace("_", "").lower()


class Mode(enum.IntEnum):
    """Which ends of a log recovery accepts: any; that of a whole log, and one where the last write is incomplete; that
    of a whole log."""

    POINT = 0
    TAIL = 1
    ABSOLUTE = 2


class Kind(enum.IntEnum):
    """What a record of a batch does. Those with CF name the column family of their key."""

    DELETION = 0
    VALUE = 1
    LOG_DATA = 3
    DELETION_CF = 4
    VALUE_CF = 5
    SINGLE_DELETION = 7
    SINGLE_DELETION_CF = 8


class Tag(enum.IntEnum):
    """What an operation of a batch is, of all kinds that RocksDB writes (`ValueType` of its db/dbformat.h). Those with
    CF name the column family that they are about."""

    DELETION = 0x00
    VALUE = 0x01
    MERGE = 0x02
    LOG_DATA = 0x03
    DELETION_CF = 0x04
    VALUE_CF = 0x05
    MERGE_CF = 0x06
    SINGLE_DELETION = 0x07
    SINGLE_DELETION_CF = 0x08
    BEGIN_PREPARE = 0x09
    END_PREPARE = 0x0A
    COMMIT = 0x0B
    ROLLBACK = 0x0C
    NOTHING = 0x0D
    RANGE_DELETION_CF = 0x0E
    RANGE_DELETION = 0x0F
    BLOB_INDEX_CF = 0x10
    BLOB_INDEX = 0x11
    BEGIN_PERSISTED_PREPARE = 0x12
    BEGIN_UNPREPARE = 0x13
    COMMIT_WITH_TIMESTAMP = 0x15
    WIDE_COLUMNS = 0x16
    WIDE_COLUMNS_CF = 0x17
    VALUE_WITH_TIME = 0x18
    VALUE_WITH_TIME_CF = 0x19


class End(NamedTuple):
    """Where reading or recovery ended, and why, with the reason's own two numbers, which are 0 where it has none."""

    at: int
    why: Why
    first: int = 0
    second: int = 0

    def __str__(self):
        numbers = [self.first, self.second][: _NUMBERS.get(self.why, 0)]
        return " ".join(str(it) for it in (self.at, self.why, *numbers))


# How many numbers a reason has.
_NUMBERS = {Why.BAD_TYPE: 1, Why.OLD_LOG: 1, Why.TAG: 1, Why.COUNT: 2, Why.ORDER: 2, Why.HIGH: 2}


class Record(NamedTuple):
    """A record of a log: the offset of its first fragment, the offset after its last one, and what it holds."""

    start: int
    end: int
    bytes: bytes


class Unread(NamedTuple):
    """A stretch of a log in which no record reads: from `start`, the end of a record, or where the scan began, up to
    `stop`, where the next record begins; and where and why reading first ended there. In C and Rust the two offsets are
    `from` and `to`: the first of these is a keyword here."""

    start: int
    stop: int
    end: End


class Pair(NamedTuple):
    """A key that a log recovers, with its column family, whose number is 0 for the default one, and its value."""

    family: int
    key: bytes
    value: bytes


class BatchHead(NamedTuple):
    """A batch's sequence, which is that of its first record that counts, and how many of its records count."""

    sequence: int
    count: int


class Op(NamedTuple):
    """A record of a batch. `value` is None where its kind has none; the bytes of log data are the key."""

    kind: Kind
    family: int
    key: bytes
    value: "bytes | None"


class Operation(NamedTuple):
    """An operation of a batch, of any kind: its tag, the column family that it names, or 0, how many sequences it takes
    (one or none), and its strings: none, one or two."""

    tag: Tag
    family: int
    sequences: int
    strings: "tuple[bytes, ...]"


class Error(Exception):
    """Why something wasn't done."""


class TooLarge(Error):
    """The batch would have more than MAX_BATCH bytes."""


class PastEnd(Error):
    """The log ends before the place where reading should begin."""


class Damage(Error):
    """The log ends in a way that the mode doesn't accept: at `end`."""

    def __init__(self, end):
        super().__init__(f"the log ends at {end}")
        self.end = end


class NoBatch(Error):
    """The bytes are no batch, or there is no record at this place: `end` says why."""

    def __init__(self, end):
        super().__init__(f"no batch: at {end}")
        self.end = end


# ---- the shared library


class _Handle(ctypes.Structure):
    _fields_ = [("full", ctypes.c_bool), ("at", ctypes.c_void_p)]


class _End(ctypes.Structure):
    _fields_ = [(it, ctypes.c_uint32 if it == "why" else ctypes.c_uint64) for it in ("at", "why", "first", "second")]

    def told(self):
        return End(self.at, Why(self.why), self.first, self.second)


class _Record(ctypes.Structure):
    _fields_ = [("start", ctypes.c_uint64), ("end", ctypes.c_uint64), ("len", ctypes.c_size_t)]


class _Unread(ctypes.Structure):
    _fields_ = [("start", ctypes.c_uint64), ("stop", ctypes.c_uint64), ("end", _End)]

    def told(self):
        return Unread(self.start, self.stop, self.end.told())


class _Recovered(ctypes.Structure):
    _fields_ = [
        *(("groups", ctypes.c_size_t), ("pairs", ctypes.c_size_t)),
        *(("last", ctypes.c_uint64), ("kept", ctypes.c_uint64), ("end", _End)),
    ]


class _PairLens(ctypes.Structure):
    _fields_ = [("family", ctypes.c_uint32), ("key_len", ctypes.c_size_t), ("value_len", ctypes.c_size_t)]


class _BatchHead(ctypes.Structure):
    _fields_ = [("sequence", ctypes.c_uint64), ("count", ctypes.c_uint32)]


class _Op(ctypes.Structure):
    _fields_ = [
        *(("kind", ctypes.c_uint32), ("family", ctypes.c_uint32)),
        *((it, ctypes.c_size_t) for it in ("key_at", "key_len", "value_at", "value_len")),
    ]


class _Place(ctypes.Structure):
    _fields_ = [("at", ctypes.c_uint64), ("last", ctypes.c_uint64)]


class _Operation(ctypes.Structure):
    _fields_ = [
        *((it, ctypes.c_uint32) for it in ("tag", "family", "sequences", "strings")),
        *((it, ctypes.c_size_t) for it in ("first_at", "first_len", "second_at", "second_len")),
    ]


def _load():
    """The shared library, with the types of its functions."""
    name, here = f"libwolzenn.so.{_ABI}", os.path.dirname(os.path.realpath(__file__))
    folder = os.environ.get("WOLZENN_LIB")
    if folder:
        library = ctypes.CDLL(os.path.join(folder, name))
    else:
        places = [os.path.join(here, os.pardir, it, name) for it in ("out", "lib")]
        try:
            library = ctypes.CDLL(next((it for it in places if os.path.exists(it)), name))
        except OSError as why:
            raise ImportError(f"{why}: run library/build of the repository, or set WOLZENN_LIB") from None
    u32, u64, size, at = ctypes.c_uint32, ctypes.c_uint64, ctypes.c_size_t, ctypes.c_void_p
    # Another version may have other functions, and other structures.
    library.wz_version.argtypes, library.wz_version.restype = [], u32
    if library.wz_version() != _VERSION:
        raise ImportError(f"wolzenn.py is for version {_VERSION} of the library, and not {library.wz_version()}")
    handle, place = ctypes.POINTER(_Handle), ctypes.POINTER(size)
    end, data = ctypes.POINTER(_End), [at, size]
    types = {
        "is_proved": [],
        "close": [handle],
        "crc32c": data,
        "crc32c_extend": [u32, *data],
        "crc32c_mask": [u32],
        "reader_open_at": [handle, u32, u64, *data],
        "reader_next": [handle, *data, ctypes.POINTER(_Record), end],
        "reader_next_since": [handle, u64, *data, ctypes.POINTER(_Record), end],
        "reader_record": [handle, *data],
        "scan_open_at": [handle, u32, u64, *data],
        "scan_next": [handle, *data, ctypes.POINTER(_Record), ctypes.POINTER(_Unread), end],
        "scan_record": [handle, *data],
        "recover": [handle, u32, u32, *data, ctypes.POINTER(_Recovered)],
        "recover_more": [handle, u32, u32, *data, ctypes.POINTER(_Recovered)],
        "pair_len": [handle, size, ctypes.POINTER(_PairLens)],
        "pair": [handle, size, *data, *data],
        "pair_find": [handle, u32, *data, place],
        "recovery_share": [handle, handle],
        "batch_new": [handle],
        "batch_put_cf": [handle, u32, *data, *data],
        "batch_delete_cf": [handle, u32, *data],
        "batch_single_delete_cf": [handle, u32, *data],
        "batch_log_data": [handle, *data],
        "batch_append": [handle, *data],
        "batch_clear": [handle],
        "batch_set_sequence": [handle, u64],
        "batch_get": [handle, ctypes.POINTER(_BatchHead)],
        "batch_len": [handle, place],
        "batch_bytes": [handle, *data],
        "batch_read": [*data, ctypes.POINTER(_BatchHead), end],
        "batch_next": [*data, place, ctypes.POINTER(_Op), end],
        "batch_read_head": [*data, ctypes.POINTER(_BatchHead)],
        "operation_next": [*data, place, ctypes.POINTER(_Operation), end],
        "recover_place": [u32, *data, ctypes.POINTER(_Place), end],
        "log_record_len": [u32, u64, size],
        "log_record": [u32, u64, *data, *data, place],
    }
    for word, arguments in types.items():
        function = getattr(library, f"wz_{word}")
        function.argtypes, function.restype = arguments, u32
    library.wz_close.restype, library.wz_is_proved.restype = None, ctypes.c_bool
    library.wz_log_record_len.restype = size
    return library


_library = _load()

_DONE, _NO_MEMORY, _CLOSED, _SMALL, _END, _TOO_LARGE, _DAMAGE, _NO_BATCH, _RANGE, _UNREAD = range(10)


def _answer(code, *answers):
    """An answer of the library that is no failure, or one of these."""
    if code == _DONE or code in answers:
        return code
    if code == _NO_MEMORY:
        raise MemoryError
    if code == _TOO_LARGE:
        raise TooLarge("the batch would have too many bytes")
    raise AssertionError(f"the answer {code} of the library")


class _Buffer(ctypes.Structure):
    """CPython's `Py_buffer`."""

    _fields_ = [
        *(("buf", ctypes.c_void_p), ("obj", ctypes.py_object), ("len", ctypes.c_ssize_t)),
        *(("itemsize", ctypes.c_ssize_t), ("readonly", ctypes.c_int), ("ndim", ctypes.c_int)),
        *((it, ctypes.c_void_p) for it in ("format", "shape", "strides", "suboffsets", "internal")),
    ]


_get_buffer = ctypes.pythonapi.PyObject_GetBuffer
_get_buffer.argtypes = [ctypes.py_object, ctypes.POINTER(_Buffer), ctypes.c_int]
_release_buffer = ctypes.pythonapi.PyBuffer_Release
_release_buffer.argtypes, _release_buffer.restype = [ctypes.POINTER(_Buffer)], None


class _Bytes:
    """Where the bytes of an object are, and how many, until it is closed."""

    def __init__(self, data):
        self._buffer = _Buffer()
        # It raises an error by itself.
        _get_buffer(data, self._buffer, 0)
        self.at, self.len = self._buffer.buf, self._buffer.len

    def close(self):
        if self._buffer is not None:
            _release_buffer(self._buffer)
            self._buffer = None

    def __enter__(self):
        return self

    def __exit__(self, *_):
        self.close()

    def __del__(self):
        if getattr(self, "_buffer", None) is not None and _release_buffer is not None:
            self.close()


def _room(length):
    """A buffer of that many bytes."""
    try:
        return ctypes.create_string_buffer(length) if length else (ctypes.c_char * 0)()
    except (OverflowError, ValueError) as why:
        raise MemoryError from why


def _within(number, bits, what):
    """A number that the library can take."""
    if not 0 <= number < 1 << bits:
        raise ValueError(f"{what} is 0 to 2^{bits} - 1, and not {number}")
    return number


class _Held:
    """A handle that holds something. It is used on the thread that made it, so that no two threads use it at once, and
    is never copied: two copies of a handle would free the same memory twice."""

    _handle = None

    def __init__(self, opens):
        """Opens something in a new handle by this call. Where that fails this is closed."""
        # Where this is called again, what the old handle holds is freed.
        self.close()
        # Another thread may be the first to use it, where that is said.
        self._handle, self._thread = _Handle(), threading.get_ident()
        try:
            opens()
        except BaseException:
            self.close()
            raise

    def __reduce_ex__(self, protocol):
        raise TypeError(f"a {type(self).__name__} can't be copied or pickled")

    def _own(self):
        """The handle, for a call."""
        # One step, so that of two threads that are the first to use it at once only one goes on.
        if self.__dict__.setdefault("_thread", threading.get_ident()) != threading.get_ident():
            raise RuntimeError("this is used on another thread than the one that made it")
        if self._handle is None:
            raise ValueError("this is closed")
        return self._handle

    def close(self):
        """Frees what it holds. Nothing else may be asked of it then."""
        if self._handle is not None:
            _library.wz_close(self._own())
            self._handle = None

    def __enter__(self):
        return self

    def __exit__(self, *_):
        self.close()

    def __del__(self):
        # Nobody uses it any more, so any thread may free it.
        if self._handle is not None and _library is not None:
            _library.wz_close(self._handle)


def is_proved():
    """Whether the shared library was built of sources that had been proved on the machine that built it."""
    return _library.wz_is_proved()


# ---- reading


class _Reading(_Held):
    """A reader or a scan of a log, which is opened by this function of the library.

    What the library finds it writes into structures that last. A record is taken out of them once its bytes are copied:
    so none is lost where there is no memory for the copy, or where a `KeyboardInterrupt` comes before it. The next call
    gives it then. A record's end and a stretch's are never 0, which says here that there is none.
    """

    _log = None

    def __init__(self, open_at, log, number, place):
        def opens():
            self.end, self._log = None, None
            self._record, self._unread, self._found_end = _Record(), _Unread(), _End()
            words = (_within(number, 32, "the number of a log"), _within(place, 64, "a place"))
            self._log = _Bytes(log)
            if _answer(open_at(self._own(), *words, self._log.at, self._log.len), _RANGE) == _RANGE:
                raise PastEnd("the log ends before this place")

        super().__init__(opens)

    def __iter__(self):
        return self

    def _next(self, find, copy):
        """Finds the next record, unless one was found that isn't given yet, and copies it."""
        if self.end is not None:
            raise StopIteration
        if self._record.end == 0 and _answer(find(), _END, _UNREAD) == _END:
            self.end = self._found_end.told()
            self.close()
            raise StopIteration
        room = _room(self._record.len)
        _answer(copy(self._own(), ctypes.addressof(room), self._record.len))
        return Record(self._record.start, self._record.end, room.raw)

    def close(self):
        """Frees what it holds, and lets go of the log. That is done too once there is no next record."""
        super().close()
        if self._log is not None:
            self._log.close()


class Records(_Reading):
    """The records of a log from its first on, or after `place`: the end of a record, or 0. So of a log that grows each
    record is read once: `log` is then all that it has by now, from its start on. Given a sequence, `since` skips the
    batches that take no sequence or end before it; a record that is no batch isn't skipped.

    It is an iterator of `Record`. Once there is no next one, `end` says where reading ended and why. PastEnd if the log
    ends before the place.
    """

    def __init__(self, log, number=0, place=0, since=None):
        self._since = None if since is None else _within(since, 64, "a sequence")
        super().__init__(_library.wz_reader_open_at, log, number, place)

    def __next__(self):
        record = self._next(self._find, _library.wz_reader_record)
        self._record.end = 0
        return record

    def _find(self):
        reader, log = self._own(), (self._log.at, self._log.len)
        if self._since is None:
            return _library.wz_reader_next(reader, *log, self._record, self._found_end)
        return _library.wz_reader_next_since(reader, self._since, *log, self._record, self._found_end)


class Scan(_Reading):
    """The records of a log, also those after damage, from its first on, or after `place`: the end of a record, or 0. So
    of a log that grows each record is found once at most: `log` is then all that it has by now, from its start on.

    It is an iterator of pairs: the stretch before a record in which none reads, an `Unread`, or None if there is no
    such stretch; and the `Record`. Once there is no next one, `end` says where and why reading first ended since the
    last record. What comes after a stretch is there, and isn't recovered: something may be missing before it. PastEnd
    if the log ends before the place.
    """

    def __init__(self, log, number=0, place=0):
        super().__init__(_library.wz_scan_open_at, log, number, place)

    def __next__(self):
        record = self._next(self._find, _library.wz_scan_record)
        found = self._unread.told() if self._unread.stop > 0 else None, record
        self._record.end = self._unread.stop = 0
        return found

    def _find(self):
        scan, log = self._own(), (self._log.at, self._log.len)
        return _library.wz_scan_next(scan, *log, self._record, self._unread, self._found_end)


# ---- recovery


class Recovery(_Held):
    """What a log recovers: `recover` makes it. It has the pairs that the batches leave, by column family and in a
    family in the byte order of their keys: `len` counts them, and they may be iterated and taken by their index. Later
    logs are recovered by `recover_more`.

    `groups` is how many records are recovered, each of which is one batch; `last` the last sequence, and `kept` the
    offset after the last of these records, each 0 where there is none: the log may be resumed there, once it is
    truncated. `end` says where recovery ended and why.
    """

    def __init__(self, log, number, mode):
        def opens():
            self.groups, self.last, self.kept, self.end, self._len = 0, 0, 0, None, 0
            self._recover(_library.wz_recover, log, number, mode)

        super().__init__(opens)

    def _recover(self, function, log, number, mode):
        """Whether the log was recovered, by this function. Otherwise recovery has ended in an earlier one."""
        found = _Recovered()
        _within(number, 32, "the number of a log")
        with _Bytes(log) as data:
            code = function(self._own(), number, Mode(mode), data.at, data.len, found)
        if _answer(code, _DAMAGE, _END) == _DAMAGE:
            raise Damage(found.end.told())
        if code == _END:
            return False
        self.groups, self.last, self.kept = found.groups, found.last, found.kept
        self.end, self._len = found.end.told(), found.pairs
        return True

    def recover_more(self, log, number=0, mode=Mode.POINT):
        """Recovers one more log: the one that was written right after those of this recovery. Its batches change the
        pairs, and their sequences must rise above `last`. So several logs are recovered in the order in which they were
        written. From then on `groups`, `kept` and `end` are about this log, and the rest about all of them.

        Whether it was: not if an earlier log isn't whole, since recovery ended in that one. A log is whole whose end is
        `Why.CLEAN`, or, if it has a number, `Why.OLD_LOG` with a lower one right after the last record kept. Damage
        where the mode doesn't accept the end. At an error the recovery stays as it was, as if the log hadn't been
        given: recover no later one over it. Each call copies the pairs of all logs so far: a recovery that was shared
        before keeps its own.
        """
        return self._recover(_library.wz_recover_more, log, number, mode)

    def __len__(self):
        return self._len

    def __getitem__(self, index):
        lens = _PairLens()
        index = index + self._len if index < 0 else index
        if not 0 <= index < self._len:
            raise IndexError("there is no such pair")
        _answer(_library.wz_pair_len(self._own(), index, lens))
        key, value = _room(lens.key_len), _room(lens.value_len)
        rooms = (ctypes.addressof(key), lens.key_len, ctypes.addressof(value), lens.value_len)
        _answer(_library.wz_pair(self._own(), index, *rooms))
        return Pair(lens.family, key.raw, value.raw)

    def share(self):
        """The same recovery once more, for the thread that uses it first. Nothing is copied: what was recovered is
        freed with the last of them."""
        other = Recovery.__new__(Recovery)
        _Held.__init__(other, lambda: _answer(_library.wz_recovery_share(self._own(), other._handle)))
        other.groups, other.last, other.kept = self.groups, self.last, self.kept
        other.end, other._len = self.end, self._len
        del other._thread
        return other

    def find(self, key, family=0):
        """The index of the key's pair, or of the next one where it has none; and whether it has one."""
        index = ctypes.c_size_t()
        with _Bytes(key) as data:
            code = _library.wz_pair_find(self._own(), _family(family), data.at, data.len, index)
        return index.value, _answer(code, _END) == _DONE

    def get(self, key, default=None, family=0):
        """The value of a key of a family, or the default if it has none."""
        index, is_there = self.find(key, family)
        return self[index].value if is_there else default

    def __iter__(self):
        return _Pairs(self)


class _Pairs:
    """The pairs of a recovery. It goes on only once a pair is there, as `_Steps` does."""

    def __init__(self, recovery):
        self._recovery, self._index = recovery, 0

    def __iter__(self):
        return self

    def __next__(self):
        if self._index >= len(self._recovery):
            raise StopIteration
        pair = self._recovery[self._index]
        self._index += 1
        return pair


def recover(log, number=0, mode=Mode.POINT):
    """Recovers a log: the batches before the first place that can't be read, or where a record is no batch or its
    sequences don't rise or are too high. Damage where the mode doesn't accept the end."""
    return Recovery(log, number, mode)


class Place:
    """A place in a log: the end of a record, or the log's start; and the last sequence up to there, 0 where there is
    none. It begins at the start."""

    def __init__(self, at=0, last=0):
        self.at, self.last = _within(at, 64, "a place"), _within(last, 64, "a sequence")

    def advance(self, log, number=0):
        """Moves it to the end of the last record that `recover` keeps, where the log may be resumed, and answers where
        recovery ends. No pairs are made. Of a log that has grown since the last call only what came after that is read;
        `log` is nevertheless all that it has by now. PastEnd if the log ends before the place, which stays then.
        Whether the log is kept up to the place isn't looked at: it is read on from there as if it were, but where it
        goes from any other place isn't promised. For a log that follows another one, which is whole
        (`Recovery.recover_more` says when), it starts at the offset 0 with the last sequence of that one."""
        place, end = _Place(self.at, self.last), _End()
        with _Bytes(log) as data:
            number = _within(number, 32, "the number of a log")
            code = _library.wz_recover_place(number, data.at, data.len, place, end)
        if _answer(code, _RANGE) == _RANGE:
            raise PastEnd("the log ends before this place")
        self.at, self.last = place.at, place.last
        return end.told()


# ---- batches


def _family(family):
    return _within(family, 32, "a column family")


class Batch(_Held):
    """A batch that is built: `bytes(batch)` are those of RocksDB's `WriteBatch::Data()`, and `len` counts them. Where
    something can't be added the batch stays as it was."""

    def __init__(self, sequence=0):
        super().__init__(lambda: _answer(_library.wz_batch_new(self._own())))
        if sequence != 0:
            self.sequence = sequence

    def put(self, key, value, family=0):
        """Adds a key with its value after the other records."""
        with _Bytes(key) as one, _Bytes(value) as two:
            places = (one.at, one.len, two.at, two.len)
            _answer(_library.wz_batch_put_cf(self._own(), _family(family), *places))

    def delete(self, key, family=0):
        """Adds a deletion of a key."""
        with _Bytes(key) as data:
            _answer(_library.wz_batch_delete_cf(self._own(), _family(family), data.at, data.len))

    def single_delete(self, key, family=0):
        """Adds a single deletion: of a key that was set at most once."""
        with _Bytes(key) as data:
            _answer(_library.wz_batch_single_delete_cf(self._own(), _family(family), data.at, data.len))

    def log_data(self, blob):
        """Adds bytes that are only in the log, and take no sequence."""
        with _Bytes(blob) as data:
            _answer(_library.wz_batch_log_data(self._own(), data.at, data.len))

    def append(self, other):
        """Adds the records of another batch, or of its bytes, whose sequence is ignored: so several batches make one
        record of the log, a group. NoBatch if the bytes are none."""
        with _Bytes(bytes(other) if isinstance(other, Batch) else other) as data:
            if _answer(_library.wz_batch_append(self._own(), data.at, data.len), _NO_BATCH) == _NO_BATCH:
                raise NoBatch(_fault_of(data))

    def clear(self):
        """Takes all records out, and sets the sequence to 0."""
        _answer(_library.wz_batch_clear(self._own()))

    @property
    def sequence(self):
        """The sequence of its first record that counts."""
        return self._head().sequence

    @sequence.setter
    def sequence(self, sequence):
        _answer(_library.wz_batch_set_sequence(self._own(), _within(sequence, 64, "a sequence")))

    @property
    def count(self):
        """How many of its records count: each of these takes a sequence."""
        return self._head().count

    def _head(self):
        head = _BatchHead()
        _answer(_library.wz_batch_get(self._own(), head))
        return head

    def __len__(self):
        length = ctypes.c_size_t()
        _answer(_library.wz_batch_len(self._own(), length))
        return length.value

    def __bytes__(self):
        room = _room(len(self))
        _answer(_library.wz_batch_bytes(self._own(), ctypes.addressof(room), len(room)))
        return room.raw


def _fault_of(data):
    """Why bytes are no batch, or None where they are one."""
    head, why = _BatchHead(), _End()
    code = _library.wz_batch_read(data.at, data.len, head, why)
    return why.told() if _answer(code, _NO_BATCH) == _NO_BATCH else None


def read_batch(data):
    """Checks the bytes of a batch: its sequence and its count, or NoBatch."""
    head, why = _BatchHead(), _End()
    with _Bytes(data) as it:
        code = _library.wz_batch_read(it.at, it.len, head, why)
    if _answer(code, _NO_BATCH) == _NO_BATCH:
        raise NoBatch(why.told())
    return BatchHead(head.sequence, head.count)


class _Steps:
    """What a function of the library finds in a batch's bytes, step by step, each as `told` gives it. It goes on only
    once that is there: so none is lost where there is no memory for it, and the next call gives it then."""

    def __init__(self, data, find, found, told):
        self._bytes, self._view = _Bytes(data), memoryview(data).cast("B")
        self._at, self._place, self._why = BATCH_HEADER_LEN, ctypes.c_size_t(), _End()
        self._find, self._found, self._told = find, found, told
        self._words = self._bytes.at, self._bytes.len, self._place, found, self._why

    def __iter__(self):
        return self

    def __next__(self):
        if self._bytes is None:
            raise StopIteration
        self._place.value = self._at
        code = self._find(*self._words)
        if _answer(code, _END, _NO_BATCH, _RANGE) == _DONE:
            told = self._told(self._found, self._view)
            self._at = self._place.value
            return told
        self._bytes = self._view = None
        if code == _NO_BATCH:
            raise NoBatch(self._why.told())
        if code == _RANGE:
            # There are fewer bytes than a header has.
            raise NoBatch(End(0, Why.SHORT))
        raise StopIteration


def _op_of(op, view):
    kind, value = Kind(op.kind), None
    if kind in (Kind.VALUE, Kind.VALUE_CF):
        value = bytes(view[op.value_at : op.value_at + op.value_len])
    return Op(kind, op.family, bytes(view[op.key_at : op.key_at + op.key_len]), value)


def operations(data):
    """Gives the operations of a batch's bytes one by one. NoBatch where no operation is, and then no more."""
    return _Steps(data, _library.wz_batch_next, _Op(), _op_of)


def batch_head(data):
    """What the header of a batch's bytes says, its sequence and its count, whatever comes after it: also where
    `read_batch` raises NoBatch. None where there are fewer bytes than a header has."""
    head = _BatchHead()
    with _Bytes(data) as it:
        code = _library.wz_batch_read_head(it.at, it.len, head)
    return BatchHead(head.sequence, head.count) if _answer(code, _NO_BATCH) == _DONE else None


def _operation_of(found, view):
    spans = [(found.first_at, found.first_len), (found.second_at, found.second_len)][: found.strings]
    strings = tuple(bytes(view[at : at + length]) for at, length in spans)
    return Operation(Tag(found.tag), found.family, found.sequences, strings)


def all_operations(data):
    """Gives the operations of a batch's bytes one by one, of all kinds that RocksDB writes, as `operations` gives those
    that recovery applies. NoBatch where it isn't known what comes next, and then no more."""
    return _Steps(data, _library.wz_operation_next, _Operation(), _operation_of)


# ---- writing


def record_bytes(record, number=0, offset=0):
    """The bytes that a record takes at this offset of a log."""
    words = (_within(number, 32, "the number of a log"), _within(offset, 64, "an offset"))
    with _Bytes(record) as data:
        room, length = _room(_library.wz_log_record_len(*words, data.len)), ctypes.c_size_t()
        places = (data.at, data.len, ctypes.addressof(room), len(room))
        _answer(_library.wz_log_record(*words, *places, length))
    return room.raw


class LogWriter:
    """Writes the records of a log one after another to a binary file, which is the caller's: it is best opened with
    `buffering=0`, and what is written becomes safe by the caller's `os.fsync`. A log that is resumed at an offset, as
    `Recovery.kept` gives it, has been truncated there, and the file's position is there too.

    `offset` is that after the last record that was written.
    """

    def __init__(self, file, number=0, offset=0):
        self.file, self.number, self.offset = file, number, offset
        self._has_failed = False

    def append(self, record):
        """Writes a record, or a `Batch`, and answers the offset after it. Where that fails the file may have a part of
        it: then no more is written, and another writer may resume the log at `offset`, once it is truncated there."""
        if self._has_failed:
            raise OSError("an earlier record was not written")
        text = record_bytes(bytes(record) if isinstance(record, Batch) else record, self.number, self.offset)
        end = _within(self.offset + len(text), 64, "the end of a log")
        self._has_failed = True
        left = memoryview(text)
        while left:
            # A file that isn't buffered may take a part only.
            taken = self.file.write(left)
            if taken is None or not 0 < taken <= len(left):
                raise OSError(f"the file says that it took {taken} of {len(left)} bytes")
            left = left[taken:]
        self._has_failed = False
        self.offset = end
        return end


# ---- checksums


def crc32c(data, crc=0):
    """The CRC-32C of the bytes; or of some bytes followed by these, from the CRC-32C of the former."""
    with _Bytes(data) as it:
        return _library.wz_crc32c_extend(_within(crc, 32, "a checksum"), it.at, it.len)


def crc32c_mask(crc):
    """The form that a checksum has in a log."""
    return _library.wz_crc32c_mask(_within(crc, 32, "a checksum"))
