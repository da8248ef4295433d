"""Rolling logs: threads, writers and readers that are slow, full logs, and what is refused."""

import os
import pathlib
import sys
import time
import unittest
from concurrent.futures import ThreadPoolExecutor

HERE = pathlib.Path(__file__).resolve().parent
sys.path.insert(0, str(HERE.parent))

import confluo  # noqa: E402

RECORDS = (
    "schema records ts:u64,writer:u32,k:u32,len:u32\nindex writers writer\ntally keys writer len *\n"
    "ask all total len *\nask each groups keys\n"
)
PLAIN = "schema records ts:u64,len:u32\nask all total len *\n"
HOSTS = "schema records ts:u64,host:u32\nindex hosts host\nask all list *\n"
FRAME = bytes([0] * 12 + [8, 0, 0x45, 0, 0, 20] + [0] * 8 + [10, 0, 0, 1] + [0] * 4)


def new_host(k):
    return k * 2654435761 % (1 << 32)


class Rolling(unittest.TestCase):
    def refused(self, code, call, *words, **more):
        with self.assertRaises(confluo.Error) as caught:
            call(*words, **more)
        self.assertEqual(caught.exception.code, code)

    def test_many_threads(self):
        each, writers, capacity = 3000, 4, 128
        for keep in (0, 3):
            rolling = confluo.Rolling(RECORDS, capacity, writers, 64, keep)
            places = {}

            def append(writer):
                with writer:
                    for k in range(each):
                        place = writer.append_values(7, [1000 * k, writer.number, k, 40 + writer.number])
                        places[writer.number, k] = place

            def ask(reader, running):
                before = 0
                while True:
                    is_last = all(it.done() for it in running)
                    tail = reader.tail()
                    quad = reader.ask_seen("all").rows[0]
                    self.assertEqual(quad.count, tail)
                    groups = reader.groups("keys").rows
                    self.assertEqual(sum(it[1] for it in groups), tail)
                    self.assertEqual(sum(it[2] for it in groups), quad.sum)
                    self.assertGreaterEqual(reader.before + tail, before)
                    self.assertLessEqual(len(reader), keep or 10**9)
                    before = reader.before + tail
                    if is_last:
                        return before

            with ThreadPoolExecutor() as threads:
                running = [threads.submit(append, rolling.writer()) for _ in range(writers)]
                asks = [threads.submit(ask, rolling.reader(), running) for _ in range(2)]
                self.assertEqual([it.result() for it in running], [None] * writers)
                self.assertEqual([it.result() for it in asks], [writers * each] * 2)
            self.assertEqual(sorted(places.values()), list(range(writers * each)))
            with rolling.reader() as reader:
                seen = {writer: [] for writer in range(writers)}
                for offset, row in enumerate(reader.rows()):
                    writer, k = row.values["writer"], row.values["k"]
                    self.assertEqual(places[writer, k], reader.before + offset)
                    seen[writer].append(k)
                for found in seen.values():
                    self.assertEqual(found, list(range(each - len(found), each)))
                self.assertEqual(sum(map(len, seen.values())), reader.tail())
                if not keep:
                    sums = [(it, each, each * (40 + it), 40 + it, 40 + it) for it in range(writers)]
                    self.assertEqual(reader.ask("each").rows, sums)
                else:
                    self.assertEqual(len(reader), keep)

    def test_who_was_away(self):
        rolling = confluo.Rolling(PLAIN, 4, 2, 0, keep=2)
        away, writer, reader = rolling.writer(), rolling.writer(), rolling.reader()
        self.assertEqual((away.number, writer.number), (1, 0))
        self.assertEqual(away.append_values(0, [1, 1]), 0)
        self.assertEqual(reader.ask("all").tail, 1)
        for k in range(40):
            self.assertEqual(writer.append_values(0, [1, 1]), k + 1)
        self.assertEqual(away.append_values(0, [1, 1]), 41)
        self.assertEqual((len(reader), reader.before), (1, 0))
        self.assertEqual((reader.tail(), len(reader), reader.before), (6, 2, 36))

    def test_a_full_one(self):
        rolling = confluo.Rolling(PLAIN, 32768, 1, 0)
        writer, reader = rolling.writer(), rolling.reader()
        rolling._segments = [confluo.rolling.Segment(31, rolling._open(), 1)]  # as if 31 were full
        writer._segment = rolling._segments[0]
        for k in range(32768):
            writer.append_values(0, [1, 1])
        for _ in range(2):
            self.refused(confluo.Code.FULL, writer.append_values, 0, [1, 1])
        writer.close()
        self.refused(confluo.Code.FULL, rolling.writer().append_values, 0, [1, 1])
        self.assertEqual((reader.tail(), reader.before), (32768, 31 * 32768))

    def test_few_nodes(self):
        def taken(nodes):
            log = confluo.Log(HOSTS, 8, 1, nodes)
            writer = log.writer()
            for k in range(9):
                try:
                    writer.append_values(0, [1, new_host(k)])
                except confluo.Error as refused:
                    return k, refused.code

        enough = next(it for it in range(400) if taken(it)[0] == 8)
        self.assertEqual(taken(enough), (8, confluo.Code.NODES))
        for nodes in (enough, 40):
            rolling, refused, place = confluo.Rolling(HOSTS, 8, 1, nodes, 3), 0, 0
            writer = rolling.writer()
            for k in range(100):
                try:
                    place = writer.append_values(0, [1, new_host(k)])
                    known = k
                except confluo.Error as fault:
                    self.assertEqual(fault.code, confluo.Code.NODES)
                    self.assertNotEqual(place % 8, 7)
                    place = writer.append_values(0, [1, new_host(known)])
                    refused += 1
            self.assertEqual(place, 99)
            self.assertEqual(refused > 0, nodes == 40)

    def test_frames(self):
        rolling = confluo.Rolling("schema packet\nask all list *\n", 300, 1, 0, 2)
        with rolling.writer() as writer, rolling.reader() as reader:
            self.assertEqual(writer.append(7, 1, FRAME), 0)
            frames = [(k, 1, FRAME) for k in range(1000)]
            self.assertEqual(writer.append_many(frames), confluo.Appended(list(range(1, 1001)), None))
            frames[600] = (7, 1, FRAME, None, 99)
            done = writer.append_many(frames)
            self.assertEqual((done.offsets[-1], done.refused), (1600, confluo.Code.FRAME))
            self.refused(confluo.Code.UNFIT, writer.append_values, 0, [])
            self.assertEqual((reader.tail(), reader.before), (401, 1200))
            self.assertEqual(reader.row(400).number, 599)
            self.assertTrue(reader.report().startswith("records 401\n"))
            self.refused(confluo.Code.NO_ROW, reader.row, 401)
        with confluo.Rolling("schema records ts:u64,mac:b6\n", 2, keep=1) as rolling:
            writer, reader = rolling.writer(), rolling.reader()
            for k in range(5):
                writer.append_row(k, [1, b"abcdef"])
            reader.tail()
            self.assertEqual(list(reader.rows()), [(4, {"ts": 1, "mac": b"abcdef"})])

    def test_waits(self):
        rolling, count = confluo.Rolling(PLAIN, 16, 1, 0, keep=1), 500
        writer, reader = rolling.writer(), rolling.reader()
        self.assertEqual(reader.wait(0, 0.02), 0)

        def wait():
            end = 0
            while end < count:
                was, end = end, reader.wait(end, 10)
                self.assertGreater(end, was)
            return end

        began = time.monotonic()
        with ThreadPoolExecutor() as threads:
            waits = threads.submit(wait)
            for _ in range(count):
                writer.append_values(0, [1, 1])
            self.assertEqual(waits.result(), count)
        self.assertLess(time.monotonic() - began, 8)

    def test_refusals(self):
        code = confluo.Code
        self.refused(code.SETUP, confluo.Rolling, "schema packet\nindex\n", writers=16, keep=16)
        self.refused(code.SIZES, confluo.Rolling, PLAIN, writers=16)
        self.refused(code.SIZES, confluo.Rolling, PLAIN, keep=16)
        self.assertRaises(ValueError, confluo.Rolling, PLAIN, keep=-1)
        rolling = confluo.Rolling(PLAIN, writers=2, nodes=0, keep=15)
        first, second = rolling.writer(), rolling.writer()
        self.refused(code.NO_WRITER, rolling.writer)
        del first
        third = rolling.writer()
        self.assertEqual((second.number, third.number), (0, 1))
        self.refused(code.UNFIT, third.append_values, 0, [])
        reader = rolling.reader()
        self.refused(code.NO_QUESTION, reader.ask, 1)
        self.refused(code.NO_LANE, reader.groups, 0)
        self.assertRaises(KeyError, reader.ask, "other")
        rolling.close()
        self.refused(code.NOTHING, rolling.writer)
        self.assertEqual((third.append_values(0, [1, 1]), reader.tail()), (0, 1))
        third.close()
        reader.close()
        self.refused(code.NOTHING, third.append_values, 0, [1, 1])
        self.refused(code.NOTHING, reader.tail)

    @unittest.skipUnless(hasattr(os, "fork"), "there is no fork")
    def test_a_forked_child(self):
        rolling = confluo.Rolling(PLAIN, 8)
        writer, reader = rolling.writer(), rolling.reader()
        child = os.fork()
        if child == 0:
            refused = 0
            for call in (rolling.writer, reader.tail, lambda: writer.append_values(0, [1, 1])):
                try:
                    call()
                except RuntimeError:
                    refused += 1
            writer.close()
            os._exit(refused)
        self.assertEqual(os.waitstatus_to_exitcode(os.waitpid(child, 0)[1]), 3)
        self.assertEqual(writer.append_values(0, [1, 1]), 0)


if __name__ == "__main__":
    unittest.main()
