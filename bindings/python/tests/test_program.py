"""A program of six threads: four append, two ask while they do, and the main one closes the log and looks at its report."""

import pathlib
import unittest
from concurrent.futures import ThreadPoolExecutor

import confluo

WRITERS, READERS, EACH = 4, 2, 1000
SETUP = """\
schema records ts:u64,host:u32,len:u16
index hosts host
filter every *
aggregate bytes every len
tally senders host len *
trigger busy bytes sum > 25000
ask all total len *
ask one find hosts 99 99
ask marks fired busy
ask most top senders sum 2
"""
REPORT = pathlib.Path(__file__).resolve().parent.parent.parent / "tests" / "program.report"


def append(writer):
    with writer:
        for k in range(EACH):
            host = 99 if k == 500 else k % 8
            writer.append_values(k, [10000000 * k, host, 1500 if k == 700 else 60 + k % 2])


def ask(reader, writers):
    """Asks all questions at one tail, until the writers have ended."""
    before, more = 0, True
    with reader:
        while more:
            more = not all(it.done() for it in writers)
            tail = reader.wait(before, 0.01 if more else 0)
            answers = {it.name: reader.ask_seen(it.name) for it in reader.names.questions}
            if tail < before or {it.tail for it in answers.values()} != {tail}:
                raise AssertionError(f"the tail was {before} and is {tail}: {answers}")
            if answers["all"].rows[0].count != tail:
                raise AssertionError(f"a total has other records: {answers}")
            before = tail
    return before


class Program(unittest.TestCase):
    def test_four_append_and_two_ask(self):
        log = confluo.Log(SETUP, capacity=WRITERS * EACH, writers=WRITERS, nodes=256)
        readers = [log.reader() for _ in range(READERS)]
        with ThreadPoolExecutor(WRITERS + READERS) as threads:
            writers = [threads.submit(append, log.writer()) for _ in range(WRITERS)]
            asks = [threads.submit(ask, it, writers) for it in readers]
            for it in writers:
                it.result()
            self.assertEqual([it.result() for it in asks], [WRITERS * EACH] * READERS)
        with log.finish() as last:
            report = last.report()
        self.assertEqual(report[: report.index("order ")], REPORT.read_text())


if __name__ == "__main__":
    unittest.main()
