"""The package: codes, numbers that do not fit, threads, and a forked child."""

import contextlib
import io
import os
import pathlib
import re
import sys
import threading
import time
import unittest
from concurrent.futures import ThreadPoolExecutor

HERE = pathlib.Path(__file__).resolve().parent
sys.path.insert(0, str(HERE.parent))

import confluo  # noqa: E402

RECORDS = (
    "schema records ts:u64,host:u32,len:u32\nindex hosts host\nask all total len *\nask one find hosts 1 1\n"
)
LANES = (
    "schema records ts:u64,host:u16,len:u32,mac:b6\nindex hosts host\nfilter every *\naggregate sums every len\n"
    "tally keys host len *\naggregate apart every len by host\ntrigger large sums sum > 40\ntrigger many apart count >= 2\n"
    "ask all total len *\nask one find hosts 1 1\nask marks fired large\nask first top keys count 2\nask each groups keys\n"
    "ask pairs fired many\nask parts groups apart\n"
)
FRAME = bytes([0] * 12 + [8, 0, 0x45, 0, 0, 20] + [0] * 8 + [10, 0, 0, 1] + [0] * 4)


class Calls(unittest.TestCase):
    def test_version(self):
        self.assertEqual(confluo.version(), 24000)

    def test_the_example_of_the_documents(self):
        page = (HERE.parents[2] / "docs" / "LIBRARY.md").read_text()
        for example in re.findall(r"```python\n(.*?)```", page, re.S):
            printed = io.StringIO()
            with contextlib.redirect_stdout(printed):
                exec(example, {"confluo": confluo})
            self.assertEqual(printed.getvalue().strip(), example.rsplit("  # ", 1)[1].strip())

    def test_refusals(self):
        log = confluo.Log("schema packet\nask all list *\n", capacity=1)
        writer, reader = log.writer(), log.reader()
        cases = [
            (confluo.Code.SIZES, lambda: confluo.Log(RECORDS, capacity=0)),
            (confluo.Code.SIZES, lambda: confluo.Log(RECORDS, writers=257)),
            (confluo.Code.SETUP, lambda: confluo.Log("schema packet\nindex\n")),
            (confluo.Code.SETUP, lambda: confluo.check("schema packet\nindex\n")),
            (confluo.Code.NO_WRITER, log.writer),
            (confluo.Code.NO_QUESTION, lambda: reader.ask(1)),
            (confluo.Code.NO_QUESTION, lambda: reader.ask_seen(1)),
            (confluo.Code.NO_LANE, lambda: reader.groups(0)),
            (confluo.Code.NO_ROW, lambda: reader.row(0)),
            (confluo.Code.UNFIT, lambda: writer.append_row(0, [1])),
            (confluo.Code.UNFIT, lambda: writer.append_values(0, [1])),
            (confluo.Code.FRAME, lambda: writer.append(0, 1, FRAME, link=65536)),
        ]
        for code, call in cases:
            with self.subTest(code=code), self.assertRaises(confluo.Error) as caught:
                call()
            self.assertEqual(caught.exception.code, code)
        with self.assertRaises(confluo.SetupError) as caught:
            confluo.check("schema packet\nindex\n")
        self.assertEqual((caught.exception.line, caught.exception.fault), (2, 3))
        self.assertTrue(
            str(caught.exception).startswith("the setup is faulty: line 2, code 3: a statement has its words")
        )
        self.assertRaises(KeyError, reader.ask, "other")

    def test_writers_come_back(self):
        log = confluo.Log(RECORDS, capacity=64)
        for k in range(20):
            with log.writer() as writer:
                self.assertEqual(writer.append_values(k, [1, 1, 1]), k)
                with self.assertRaises(confluo.Error) as caught:
                    log.writer()
                self.assertEqual(caught.exception.code, confluo.Code.NO_WRITER)

    def test_lines(self):
        log = confluo.Log(RECORDS, capacity=8)
        writer, reader = log.writer(), log.reader()
        for row in ([1, 1, 10], [2, 7, 25], [3, 1, 20]):
            writer.append_values(0, row)
        self.assertEqual(reader.ask_text("ask late list len>15").words, [1, 2])
        self.assertEqual(reader.ask_text("ask seven find hosts 7 7").words, [1])
        with self.assertRaises(confluo.SetupError) as caught:
            reader.ask_text("ask one list *")
        self.assertEqual((caught.exception.line, caught.exception.fault), (1, 5))
        with self.assertRaises(confluo.Error) as caught:
            reader.ask_text("index lens len")
        self.assertEqual(caught.exception.code, confluo.Code.NO_QUESTION)

    def test_numbers_that_do_not_fit(self):
        log = confluo.Log(RECORDS, capacity=8)
        writer, reader = log.writer(), log.reader()
        cases = [
            lambda: confluo.Log(RECORDS, capacity=2**32 + 2),
            lambda: confluo.Log(RECORDS, nodes=-1),
            lambda: reader.ask(2**32),
            lambda: writer.append_values(0, [2**64, 1, 1]),
            lambda: writer.append_values(-1, [1, 1, 1]),
            lambda: writer.append(0, 2**64 + 1, FRAME),
            lambda: writer.append(0, 1, FRAME, length=-1),
            lambda: writer.append_many([(0, 2**64, FRAME)]),
            lambda: writer.append_row(0, [-1, 1, 1]),
            lambda: writer.append_row(0, [1, 1, bytes(17)]),
            lambda: reader.row(2**32),
            lambda: reader.groups(-1),
        ]
        for k, call in enumerate(cases):
            with self.subTest(case=k), self.assertRaises(ValueError):
                call()
        self.assertEqual(reader.tail(), 0)

    def test_frames_are_any_bytes(self):
        with confluo.Log(
            "schema packet\nindex sources src\nask one find sources 10.0.0.1 10.0.0.1\n", capacity=3
        ) as log:
            with log.writer() as writer, log.reader() as reader:
                for k, frame in enumerate([FRAME, bytearray(FRAME), memoryview(FRAME)]):
                    self.assertEqual(writer.append(k, 1000, frame), k)
                with self.assertRaises(confluo.Error) as caught:
                    writer.append(3, 1000, FRAME)
                self.assertEqual(caught.exception.code, confluo.Code.FULL)
                answer = reader.ask(0)
                self.assertEqual(
                    (answer.tail, answer.kind, answer.words), (3, confluo.Kind.PLACES, [0, 1, 2])
                )
                self.assertEqual((writer.room().capacity, writer.room().covered), (3, 3))
            with self.assertRaises(confluo.Error) as caught:
                reader.tail()
            self.assertEqual(caught.exception.code, confluo.Code.NOTHING)

    def test_batches_go_on_after_a_refusal(self):
        log = confluo.Log("schema packet\nask all list *\n", capacity=3, writers=1)
        writer, reader = log.writer(), log.reader()
        frames = [confluo.Frame(k, 1000, FRAME, link=1 + (k == 1)) for k in range(5)]
        self.assertEqual(writer.append_many(frames), confluo.Appended([0], confluo.Code.FRAME))
        self.assertEqual(writer.append_many(frames[2:4]), confluo.Appended([1, 2], None))
        self.assertEqual(writer.append_many(frames[4:]), confluo.Appended([], confluo.Code.FULL))
        self.assertEqual(writer.append_many([]), confluo.Appended([], None))
        self.assertEqual(reader.tail(), 3)
        self.assertEqual([reader.row(k).number for k in range(3)], [0, 2, 3])
        self.assertEqual(reader.row(0).values["src"], 0x0A000001)

    def test_names(self):
        names = confluo.Log(LANES).names
        self.assertEqual(names.attributes[2:], [("len", "u32"), ("mac", "b6")])
        self.assertEqual(
            names.lanes,
            [
                ("hosts", "index", "host", None),
                ("every", "filter", None, None),
                ("sums", "aggregate", None, "len"),
                ("keys", "tally", "host", "len"),
                ("apart", "aggregate by", "host", "len"),
            ],
        )
        self.assertEqual(
            names.triggers, [("large", "sums", "sum", ">", 40), ("many", "apart", "count", ">=", 2)]
        )
        self.assertEqual(
            names.questions,
            [
                confluo.Question("all", "total", "len"),
                confluo.Question("one", "find", "hosts", (1, 1)),
                confluo.Question("marks", "fired", "sums", part="sum", operator=">", number=40),
                confluo.Question("first", "top", "keys", part="count", count=2),
                confluo.Question("each", "groups", "keys"),
                confluo.Question("pairs", "fired", "apart", part="count", operator=">=", number=2),
                confluo.Question("parts", "groups", "apart"),
            ],
        )
        setup = "schema packet\nwidth 50\n"
        log = confluo.Log(setup)
        reader = log.reader()
        log.close()
        self.assertEqual((reader.names.width, reader.names.setup, log.width()), (50, setup, 50))

    def test_links(self):
        cases = [
            ("schema packet\nindex hosts src\n", [True, True, False]),
            ("schema packet6\n", [True, True, True]),
            (LANES, [False, False, False]),
        ]
        for setup, reads in cases:
            log = confluo.Log(setup)
            self.assertEqual([log.reads_link(link) for link in (1, 113, 276)], reads)

    def test_a_row_of_packet6(self):
        log = confluo.Log("schema packet6\n", capacity=8)
        writer, reader = log.writer(), log.reader()
        writer.append(0, 1, FRAME)
        self.assertEqual(reader.tail(), 1)
        row = reader.row(0)[1]
        self.assertEqual((len(row), row["kind"], row["flow"]), (32, 1, 2746426381701520720))

    def test_questions_at_one_tail(self):
        log = confluo.Log(LANES, capacity=8)
        writer, reader = log.writer(), log.reader()
        rows = [(1, 7, 10, b"abcdef"), (2, 8, 25, b"abcdef"), (3, 7, 20, b"ghijkl")]
        for k, row in enumerate(rows):
            writer.append_row(10 + k, row)
        self.assertEqual(reader.ask_seen("all").rows, [confluo.Quad(0, 0, 0, 0)])
        self.assertEqual(reader.tail(), 3)
        writer.append_row(13, rows[0])
        cases = [
            ("all", confluo.Kind.QUAD, [(3, 55, 10, 25)]),
            ("one", confluo.Kind.PLACES, []),
            ("marks", confluo.Kind.MARKS, [(0, 55)]),
            ("first", confluo.Kind.TOPS, [(7, 2), (8, 1)]),
            ("each", confluo.Kind.GROUPS, [(7, 2, 30, 10, 20), (8, 1, 25, 25, 25)]),
            ("pairs", confluo.Kind.KEYED_MARKS, [(0, 7, 2)]),
            ("parts", confluo.Kind.KEYED_GROUPS, [(0, 7, 2, 30, 10, 20), (0, 8, 1, 25, 25, 25)]),
        ]
        for name, kind, found in cases:
            answer = reader.ask_seen(name)
            self.assertEqual((answer.tail, answer.kind, answer.rows), (3, kind, found))
        groups = reader.groups("keys")
        self.assertEqual(groups.rows, [(7, 2, 30, 10, 20), (8, 1, 25, 25, 25)])
        merged = groups.merge(groups)
        self.assertEqual((merged.tail, merged.rows), (6, [(7, 4, 60, 10, 20), (8, 2, 50, 25, 25)]))
        with self.assertRaises(confluo.Error) as caught:
            confluo.Answer(1, confluo.Kind.GROUPS, [1, 0, 1, 0, 0]).merge(groups)
        self.assertEqual(caught.exception.code, confluo.Code.NO_GROUPS)
        self.assertRaises(ValueError, reader.ask("all").merge, groups)
        with self.assertRaises(confluo.Error) as caught:
            reader.groups("apart")
        self.assertEqual(caught.exception.code, confluo.Code.NO_LANE)
        self.assertEqual(reader.row(2), (12, {"ts": 3, "host": 7, "len": 20, "mac": b"ghijkl"}))

    def test_logs_are_closed(self):
        log = confluo.Log("schema records ts:u64\nask all list *\n", capacity=4, writers=2, nodes=0)
        first, second, early = log.writer(), log.writer(), log.reader()
        first.append_values(8, [1])
        second.append_values(7, [1])
        first.close()
        with self.assertRaises(confluo.Error) as caught:
            log.finish()
        self.assertEqual(caught.exception.code, confluo.Code.BUSY)
        second.close()
        last = log.finish()
        with self.assertRaises(confluo.Error) as caught:
            log.writer()
        self.assertEqual(caught.exception.code, confluo.Code.NOTHING)
        self.assertEqual(last.report(), "records 2\nask all list 2: 7 8\norder 1*1 0*1\n")
        self.assertEqual(last.ask_seen("all").tail, 2)
        self.assertEqual(early.report(), "records 0\nask all list 0:\norder\n")

    def test_frames_of_pandas(self):
        try:
            import pandas  # noqa: F401
        except ImportError:
            self.skipTest("pandas is missing: apt-get install python3-pandas")
        log = confluo.Log(LANES, capacity=8)
        writer, reader = log.writer(), log.reader()
        for host in (7, 8, 7):
            writer.append_row(0, (1, host, 10, bytes(6)))
        frame = reader.ask("first").to_frame()
        self.assertEqual((list(frame.columns), frame.values.tolist()), (["key", "value"], [[7, 2], [8, 1]]))
        frame = reader.groups("keys").to_frame()
        self.assertEqual(list(frame["sum"]), [20, 10])
        self.assertEqual(len(reader.ask("marks").to_frame()), 0)

    def test_captures(self):
        sys.path.insert(0, str(HERE.parents[2] / "bench"))
        import library_answers

        cases = [*library_answers.examples(), *map(library_answers.drawn, range(1, 21))]
        for number, case in enumerate(cases):
            fault = library_answers.fault_of(*case, writers=1 + number % 3, batch=(1, 5)[number % 2])
            self.assertIsNone(fault)
        self.assertGreater(len(cases), 30)

    def test_bytes_of_a_log(self):
        small, large = confluo.check(RECORDS, capacity=1, nodes=0), confluo.check(
            RECORDS, capacity=2, nodes=0
        )
        self.assertEqual((large - small) % 8, 0)
        self.assertGreater(large, small)


class Threads(unittest.TestCase):
    def test_twenty_threads(self):
        log = confluo.Log(RECORDS, capacity=4000, writers=4, nodes=64)
        writers, reader = [log.writer() for _ in range(4)], log.reader()
        faults = []

        def append(writer):
            try:
                for k in range(200):
                    writer.append_values(k, [k, k % 3, 10])
            except Exception as fault:  # noqa: BLE001
                faults.append(fault)

        def ask():
            try:
                for _ in range(200):
                    answer = reader.ask(0)
                    if answer.words[:2] != [answer.tail, 10 * answer.tail]:
                        faults.append(answer)
            except Exception as fault:  # noqa: BLE001
                faults.append(fault)

        threads = [threading.Thread(target=append, args=(writers[k % 4],)) for k in range(14)]
        threads += [threading.Thread(target=ask) for _ in range(6)]
        for thread in threads:
            thread.start()
        for thread in threads:
            thread.join()
        self.assertEqual(faults, [])
        self.assertEqual(reader.ask(0).words, [2800, 28000, 10, 10])

    def test_readers_wait(self):
        setup, rounds = "schema records ts:u64\n", 500
        log, other = confluo.Log(setup), confluo.Log(setup)
        writer, reader, answers, asks = log.writer(), log.reader(), other.writer(), other.reader()
        began = time.monotonic()
        self.assertEqual(reader.wait(0, 0.02), 0)
        self.assertGreaterEqual(time.monotonic() - began, 0.02)

        def echo():
            for k in range(rounds):
                if reader.wait(k, 10) == k + 1:
                    answers.append_values(k, [1])

        # Each appends once the other has. A wake that is lost takes ten seconds.
        with ThreadPoolExecutor() as threads:
            threads.submit(echo)
            for k in range(rounds):
                began = time.monotonic()
                writer.append_values(k, [1])
                self.assertEqual(asks.wait(k, 10), k + 1)
                self.assertLess(time.monotonic() - began, 5)
            writer.close()
            waits = threads.submit(reader.wait, rounds, 10)
            time.sleep(0.02)
            log.finish()
            self.assertEqual(waits.result(), rounds)
            self.assertLess(time.monotonic() - began, 5)

    @unittest.skipUnless(hasattr(os, "fork"), "there is no fork")
    def test_a_forked_child(self):
        log = confluo.Log(RECORDS, capacity=8)
        reader = log.reader()
        child = os.fork()
        if child == 0:
            try:
                reader.tail()
            except RuntimeError:
                log.close()
                os._exit(0)
            os._exit(1)
        self.assertEqual(os.waitstatus_to_exitcode(os.waitpid(child, 0)[1]), 0)
        self.assertEqual(reader.tail(), 0)


if __name__ == "__main__":
    unittest.main()
