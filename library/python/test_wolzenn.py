"""Tests of `wolzenn.py`. `tests/library` runs them, over the library that `library/build` has made."""

import contextlib
import copy
import gc
import io
import mmap
import os
import pickle
import tempfile
import threading
import unittest
import unittest.mock

import wolzenn
from wolzenn import Batch, BatchHead, End, Kind, LogWriter, Mode, Op, Operation, Pair, Place, Records, Scan, Tag
from wolzenn import Unread, Why


def built(sequence, *additions):
    """The bytes of a batch with a key and a value for each addition; without a value the key is deleted."""
    with Batch(sequence) as batch:
        for key, *value in additions:
            if value:
                batch.put(key, *value)
            else:
                batch.delete(key)
        return bytes(batch)


def log_of(*batches, number=0):
    writer = LogWriter(io.BytesIO(), number)
    for batch in batches:
        writer.append(batch)
    return writer.file.getvalue()


@contextlib.contextmanager
def failing(name, error):
    """A function of the module, by its name, raises this error the first time that it is called in the context."""
    own, left = getattr(wolzenn, name), [error]

    def function(*words):
        if left:
            raise left.pop()
        return own(*words)

    with unittest.mock.patch.object(wolzenn, name, function):
        yield


ONE, TWO = built(1, (b"a", b"1"), (b"b", b"")), built(3, (b"a",), (b"c", b"3"))
LOG = log_of(ONE, TWO)


class Reading(unittest.TestCase):
    def test_records_and_the_end(self):
        records = Records(LOG)
        self.assertIsNone(records.end)
        found = list(records)
        self.assertEqual([it.bytes for it in found], [ONE, TWO])
        self.assertEqual((found[0].start, found[0].end, found[1].end), (0, found[1].start, len(LOG)))
        self.assertEqual(records.end, End(len(LOG), Why.CLEAN))
        self.assertEqual(list(records), [])

    def test_from_a_place_and_since_a_sequence(self):
        first = next(Records(LOG))
        self.assertEqual([it.bytes for it in Records(LOG, place=first.end)], [TWO])
        self.assertEqual([it.bytes for it in Records(LOG, since=3)], [TWO])
        with self.assertRaises(wolzenn.PastEnd):
            Records(LOG, place=len(LOG) + 1)

    def test_a_place_that_advances(self):
        place = Place()
        self.assertEqual(place.advance(LOG[:-1]).at, next(Records(LOG)).end)
        self.assertEqual((place.at, place.last), (next(Records(LOG)).end, 2))
        self.assertEqual(place.advance(LOG), End(len(LOG), Why.CLEAN))
        with wolzenn.recover(LOG) as recovery:
            self.assertEqual((place.at, place.last), (recovery.kept, recovery.last))
        with self.assertRaises(wolzenn.PastEnd):
            place.advance(LOG[:-1])
        self.assertEqual((place.at, place.last), (len(LOG), 4))

    def test_a_log_with_a_number(self):
        log = log_of(ONE, number=7)
        self.assertEqual([it.bytes for it in Records(log, 7)], [ONE])
        for number, says in ((0, "0 badtype 5"), (8, "0 oldlog 7")):
            records = Records(log, number)
            self.assertEqual((list(records), str(records.end)), ([], says))

    def test_damage(self):
        records = Records(LOG[:-1])
        self.assertEqual(len(list(records)), 1)
        self.assertEqual(records.end.why, Why.BAD_LENGTH)
        self.assertEqual(list(Records(b"")), [])

    def test_a_scan_past_damage(self):
        first, log = next(Records(LOG)), bytearray(LOG)
        log[first.end - 1] ^= 1
        scan = Scan(log)
        [(unread, record)] = scan
        self.assertEqual(unread, Unread(0, first.end, End(0, Why.BAD_CHECKSUM)))
        self.assertEqual((record.start, record.bytes), (first.end, TWO))
        self.assertEqual(scan.end, End(len(LOG), Why.CLEAN))
        # From a place on, and with nothing that is damaged.
        self.assertEqual([it for it in Scan(LOG, place=first.end)], [(None, record)])
        self.assertEqual([it.bytes for _, it in Scan(LOG)], [ONE, TWO])
        log.append(0)
        with self.assertRaises(wolzenn.PastEnd):
            Scan(LOG, place=len(LOG) + 1)
        with Scan(LOG[:-1]) as cut:
            self.assertEqual(next(cut), (None, first))
        with self.assertRaises(ValueError):
            next(cut)

    def test_a_map_that_is_only_read(self):
        with tempfile.TemporaryFile() as file:
            file.write(LOG)
            file.flush()
            with mmap.mmap(file.fileno(), 0, access=mmap.ACCESS_READ) as log:
                with Records(log) as records:
                    self.assertEqual(next(records).bytes, ONE)
                self.assertEqual(wolzenn.recover(log).groups, 2)

    def test_the_log_is_kept_until_the_end(self):
        log = bytearray(LOG)
        records = Records(log)
        with self.assertRaises(BufferError):
            log.append(0)
        list(records)
        log.append(0)

    def test_a_record_that_had_no_room(self):
        damaged = bytearray(LOG)
        damaged[next(Records(LOG)).end - 1] ^= 1
        # Where there is no room for a record that was found, and where Ctrl-C comes right after it was found.
        for name, error in (("_room", MemoryError), ("_answer", KeyboardInterrupt)):
            for opens in (Records, lambda log: Records(log, since=1), Scan, lambda _: Scan(damaged)):
                says, reader = list(opens(LOG)), opens(LOG)
                found = []
                for _ in says:
                    with failing(name, error), self.assertRaises(error):
                        next(reader)
                    found.append(next(reader))
                self.assertEqual(found, says)
                with failing("_answer", KeyboardInterrupt), self.assertRaises(KeyboardInterrupt):
                    next(reader)
                self.assertEqual((list(reader), reader.end), ([], End(len(LOG), Why.CLEAN)))

    def test_closed(self):
        records = Records(LOG)
        records.close()
        records.close()
        with self.assertRaises(ValueError):
            next(records)


class Recovering(unittest.TestCase):
    def test_pairs(self):
        with wolzenn.recover(LOG) as found:
            self.assertEqual((found.groups, found.last, found.kept), (2, 4, len(LOG)))
            self.assertEqual(list(found), [Pair(0, b"b", b""), Pair(0, b"c", b"3")])
            self.assertEqual((len(found), found[-1], found.get(b"c"), found.get(b"a")), (2, found[1], b"3", None))
            places = [found.find(b"c"), found.find(b"bb"), found.find(b"", 1)]
            self.assertEqual(places, [(1, True), (1, False), (2, False)])
            self.assertEqual(found.end, End(len(LOG), Why.CLEAN))
            with self.assertRaises(IndexError):
                found[2]

    def test_begun_anew(self):
        found = wolzenn.recover(LOG)
        found.__init__(log_of(ONE), 0, Mode.POINT)
        self.assertEqual((found.groups, list(found)), (1, [Pair(0, b"a", b"1"), Pair(0, b"b", b"")]))
        # What fails leaves nothing of what was there.
        for log, mode, error in ((LOG[:-1], Mode.ABSOLUTE, wolzenn.Damage), (LOG, 3, ValueError), (1, 0, TypeError)):
            found.__init__(LOG, 0, Mode.POINT)
            with self.assertRaises(error):
                found.__init__(log, 0, mode)
            says = (0, 0, 0, None, 0, [])
            self.assertEqual((found.groups, found.last, found.kept, found.end, len(found), list(found)), says)
            for call in (lambda: found.find(b"b"), found.share, lambda: found.recover_more(LOG)):
                with self.assertRaisesRegex(ValueError, "this is closed"):
                    call()
        batch = Batch(1)
        with failing("_answer", MemoryError), self.assertRaises(MemoryError):
            batch.__init__(2)
        with self.assertRaisesRegex(ValueError, "this is closed"):
            batch.put(b"a", b"1")

    def test_modes(self):
        cut = LOG[:-1]
        for mode in (Mode.POINT, Mode.TAIL):
            with wolzenn.recover(cut, mode=mode) as found:
                self.assertEqual((found.groups, found.end.why), (1, Why.BAD_LENGTH))
        with self.assertRaises(wolzenn.Damage) as raised:
            wolzenn.recover(cut, mode=Mode.ABSOLUTE)
        self.assertEqual(raised.exception.end.why, Why.BAD_LENGTH)
        with self.assertRaises(ValueError):
            wolzenn.recover(cut, mode=3)

    def test_families(self):
        with Batch(1) as batch:
            batch.put(b"k", b"2", family=300)
            batch.put(b"k", b"1")
            batch.put(b"gone", b"1", family=2)
            batch.delete(b"gone", family=2)
            log = log_of(batch)
        with wolzenn.recover(log) as found:
            self.assertEqual(list(found), [Pair(0, b"k", b"1"), Pair(300, b"k", b"2")])
            self.assertEqual(found.get(b"k", family=300), b"2")


    def test_logs_in_turn(self):
        for number in (0, 7):
            three = log_of(built(5, (b"b",), (b"d", b"4")), number=number)
            with wolzenn.recover(log_of(ONE, number=number), number) as found:
                shared = found.share()
                self.assertTrue(found.recover_more(log_of(TWO, number=number), number, Mode.ABSOLUTE))
                self.assertEqual((found.groups, found.last, found.kept, len(found)), (1, 4, found.end.at, 2))
                # A log that the mode refuses changes nothing.
                with self.assertRaises(wolzenn.Damage):
                    found.recover_more(three[:-1], number, Mode.ABSOLUTE)
                self.assertEqual((found.groups, found.last, len(found)), (1, 4, 2))
                self.assertTrue(found.recover_more(three, number))
                self.assertEqual(list(found), [Pair(0, b"c", b"3"), Pair(0, b"d", b"4")])
                self.assertEqual(list(shared), [Pair(0, b"a", b"1"), Pair(0, b"b", b"")])
                # Its sequences don't rise, so that recovery ends in it.
                self.assertTrue(found.recover_more(three, number))
                self.assertEqual((found.groups, found.kept, found.last), (0, 0, 6))
                self.assertEqual(found.end, End(0, Why.ORDER, 5, 6))
                self.assertFalse(found.recover_more(log_of(built(9, (b"e", b"")), number=number), number))
                self.assertEqual((len(found), found.last), (2, 6))

    def test_a_log_over_an_older_one(self):
        over = log_of(ONE, number=7) + log_of(TWO, number=6)
        with wolzenn.recover(over, 7) as found:
            self.assertEqual(found.end.why, Why.OLD_LOG)
            self.assertTrue(found.recover_more(log_of(TWO, number=8), 8, Mode.ABSOLUTE))
            self.assertEqual((len(found), found.last, found.end.why), (2, 4, Why.CLEAN))

    def test_a_log_read_with_a_number_that_is_too_low(self):
        with wolzenn.recover(log_of(ONE, number=7), 6) as found:
            self.assertEqual((found.end.why, found.end.first, len(found)), (Why.OLD_LOG, 7, 0))
            self.assertFalse(found.recover_more(log_of(TWO, number=8), 8))


class Batches(unittest.TestCase):
    def test_operations(self):
        with Batch() as batch:
            batch.put(b"a", bytearray(b"1"))
            batch.put(memoryview(b"a"), b"", family=1)
            batch.delete(b"")
            batch.single_delete(b"s")
            batch.single_delete(b"s", 1)
            batch.delete(b"d", 2)
            batch.log_data(b"note")
            batch.sequence = 2**56
            self.assertEqual((batch.sequence, batch.count, len(batch)), (2**56, 6, len(bytes(batch))))
            data = bytes(batch)
        self.assertEqual(wolzenn.read_batch(data), BatchHead(2**56, 6))
        says = [
            Op(Kind.VALUE, 0, b"a", b"1"),
            Op(Kind.VALUE_CF, 1, b"a", b""),
            Op(Kind.DELETION, 0, b"", None),
            Op(Kind.SINGLE_DELETION, 0, b"s", None),
            Op(Kind.SINGLE_DELETION_CF, 1, b"s", None),
            Op(Kind.DELETION_CF, 2, b"d", None),
            Op(Kind.LOG_DATA, 0, b"note", None),
        ]
        self.assertEqual(list(wolzenn.operations(data)), says)

    def test_operations_of_all_kinds(self):
        data = bytes(8) + b"\1\0\0\0" + b"\x06\xac\x02\1k\1+" + b"\x0b\3xid" + b"\x0d"
        says = [
            Operation(Tag.MERGE_CF, 300, 1, (b"k", b"+")),
            Operation(Tag.COMMIT, 0, 0, (b"xid",)),
            Operation(Tag.NOTHING, 0, 0, ()),
        ]
        self.assertEqual(list(wolzenn.all_operations(data)), says)
        self.assertEqual(wolzenn.batch_head(data), BatchHead(0, 1))
        self.assertIsNone(wolzenn.batch_head(data[:11]))
        for cut, end in ((data + b"\x14", End(len(data), Why.TAG, 0x14)), (data[:16], End(12, Why.SHORT))):
            with self.assertRaises(wolzenn.NoBatch) as raised:
                list(wolzenn.all_operations(cut))
            self.assertEqual(raised.exception.end, end)
            self.assertEqual(wolzenn.batch_head(cut), BatchHead(0, 1))

    def test_what_had_no_room(self):
        # Where Ctrl-C comes right after something was found, or there is no memory for it.
        recovery = wolzenn.recover(LOG)
        for opens in (lambda: wolzenn.operations(ONE), lambda: wolzenn.all_operations(TWO), lambda: iter(recovery)):
            says, iterator, found = list(opens()), opens(), []
            for _ in says:
                with failing("_answer", KeyboardInterrupt), self.assertRaises(KeyboardInterrupt):
                    next(iterator)
                found.append(next(iterator))
            self.assertEqual((found, list(iterator)), (says, []))
        data = bytearray(ONE)
        for op in wolzenn.operations(data):
            with self.assertRaises(BufferError):
                data.append(0)
        data.append(0)

    def test_a_group(self):
        with Batch(9) as group, Batch(1) as member:
            member.put(b"a", b"1")
            group.append(member)
            group.append(TWO)
            self.assertEqual((group.sequence, group.count), (9, 3))
            old = bytes(group)
            with self.assertRaises(wolzenn.NoBatch) as raised:
                group.append(TWO[:-1])
            self.assertEqual((raised.exception.end, bytes(group)), (End(0, Why.SHORT), old))
            group.clear()
            self.assertEqual(bytes(group), bytes(12))

    def test_too_large(self):
        with Batch() as batch:
            with self.assertRaises(wolzenn.TooLarge):
                batch.delete(bytes(wolzenn.MAX_BATCH))
            self.assertEqual(len(batch), wolzenn.BATCH_HEADER_LEN)

    def test_no_batch(self):
        uncounted = ONE[:8] + bytes(4) + ONE[12:]
        for data, says in ((b"", "0 short"), (ONE + b"\x02", "0 tag 2"), (uncounted, "0 count 0 2")):
            with self.assertRaises(wolzenn.NoBatch) as raised:
                wolzenn.read_batch(data)
            self.assertEqual(str(raised.exception.end), says)
        found = wolzenn.operations(ONE + b"\x02")
        self.assertEqual([next(found).key, next(found).key], [b"a", b"b"])
        with self.assertRaises(wolzenn.NoBatch) as raised:
            next(found)
        self.assertEqual(str(raised.exception.end), f"{len(ONE)} tag 2")
        with self.assertRaises(wolzenn.NoBatch):
            next(wolzenn.operations(b"short"))

    def test_numbers_out_of_range(self):
        with Batch() as batch:
            for call in (lambda: batch.put(b"", b"", 2**32), lambda: setattr(batch, "sequence", -1)):
                with self.assertRaises(ValueError):
                    call()
        for call in (lambda: Records(LOG, -1), lambda: Records(LOG, 0, 2**64), lambda: wolzenn.crc32c(b"", 2**32)):
            with self.assertRaises(ValueError):
                call()
        with self.assertRaises(TypeError):
            Records("text")


class Writing(unittest.TestCase):
    def test_a_record_of_many_blocks(self):
        large = bytes(100_000)
        text = wolzenn.record_bytes(large, 7, 40_000)
        log = bytes(40_000) + text
        self.assertEqual([it.bytes for it in Records(log, 7, 40_000)], [large])

    def test_resumed(self):
        with tempfile.TemporaryFile(buffering=0) as file:
            writer = LogWriter(file)
            self.assertEqual(writer.append(ONE), writer.offset)
            file.write(b"torn")
            file.seek(0)
            with wolzenn.recover(file.read(), mode=Mode.TAIL) as found:
                file.truncate(found.kept)
                file.seek(found.kept)
                LogWriter(file, 0, found.kept).append(TWO)
            file.seek(0)
            self.assertEqual(file.read(), LOG)

    def test_a_file_that_takes_nothing(self):
        class Odd(io.RawIOBase):
            def __init__(self, taken):
                self.calls, self.taken = 0, taken

            def write(self, data):
                self.calls += 1
                if self.calls > 1:
                    raise AssertionError("a second call")
                return self.taken

        for taken in (0, None, -1, len(LOG) + 1):
            writer = LogWriter(Odd(taken))
            with self.assertRaisesRegex(OSError, f"took {taken} of"):
                writer.append(ONE)
            with self.assertRaisesRegex(OSError, "an earlier record"):
                writer.append(TWO)
            self.assertEqual((writer.file.calls, writer.offset), (1, 0))

    def test_a_file_that_takes_a_part(self):
        class Slow(io.RawIOBase):
            taken = b""

            def write(self, data):
                if len(self.taken) >= 40:
                    raise OSError("full")
                self.taken += bytes(data[:9])
                return min(len(data), 9)

        writer = LogWriter(Slow())
        end = writer.append(ONE)
        self.assertEqual(writer.file.taken, LOG[:end])
        with self.assertRaises(OSError):
            writer.append(TWO)
        with self.assertRaisesRegex(OSError, "an earlier record"):
            writer.append(TWO)
        self.assertEqual(writer.offset, end)


class Others(unittest.TestCase):
    def test_checksums(self):
        self.assertEqual(wolzenn.crc32c(b"123456789"), 0xE3069283)
        self.assertEqual(wolzenn.crc32c(b"6789", wolzenn.crc32c(b"12345")), 0xE3069283)
        self.assertEqual((wolzenn.crc32c(b""), wolzenn.crc32c_mask(0)), (0, 0xA282EAD8))

    def test_another_thread(self):
        batch, raised = Batch(), []

        def use():
            try:
                batch.put(b"a", b"1")
            except RuntimeError as why:
                raised.append(why)

        thread = threading.Thread(target=use)
        thread.start()
        thread.join()
        self.assertEqual((len(raised), batch.count), (1, 0))

    def test_a_recovery_that_threads_share(self):
        found, recovery = [], wolzenn.recover(LOG)

        def look_up(mine):
            with mine:
                found.append([mine.get(b"c") for _ in range(100)])

        threads = [threading.Thread(target=look_up, args=[recovery.share()]) for _ in range(4)]
        recovery.close()
        for thread in threads:
            thread.start()
        for thread in threads:
            thread.join()
        self.assertEqual(found, [[b"3"] * 100] * 4)

    def test_no_copies(self):
        recovery = wolzenn.recover(LOG)
        for held in (recovery, recovery.share(), Batch(), Records(LOG), Scan(LOG)):
            for copied in (copy.copy, copy.deepcopy, pickle.dumps):
                with self.assertRaisesRegex(TypeError, "can't be copied or pickled"):
                    copied(held)
        self.assertEqual(copy.deepcopy(list(Scan(LOG))), list(Scan(LOG)))

    def test_memory_is_given_back(self):
        def pages():
            with open("/proc/self/statm") as file:
                return int(file.read().split()[1])

        large = bytes(1_000_000)
        before = 0
        for at in range(60):
            with self.assertRaises(wolzenn.NoBatch):
                Batch().append(b"no batch")
            batch = Batch(1)
            batch.put(large, large)
            found = wolzenn.recover(log_of(batch))
            found.__init__(log_of(batch), 0, Mode.POINT)
            next(Records(log_of(batch)))
            del batch, found
            gc.collect()
            before = pages() if at == 20 else before
        self.assertLess(pages() - before, 10_000_000 // os.sysconf("SC_PAGE_SIZE"))

    def test_words(self):
        self.assertEqual([str(it) for it in (Why.SHORT_HEADER, Why.OLD_LOG)], ["shortheader", "oldlog"])


if __name__ == "__main__":
    unittest.main()
