"""What the package itself makes of its arguments and of answers. A stand-in of the library is enough for these."""

import pathlib
import sys
import typing
import unittest

sys.path.insert(0, str(pathlib.Path(__file__).resolve().parent.parent))

import confluo  # noqa: E402
from confluo import answers, calls, errors, log as logs  # noqa: E402

SETUP = "schema records ts:u64,len:u32\nask all total len *\nask some list *\n"
FRAME = bytes(60)


class Forms(unittest.TestCase):
    def setUp(self):
        self.log = confluo.Log(SETUP, capacity=8)
        self.writer, self.reader = self.log.writer(), self.log.reader()
        for k in range(3):
            self.writer.append_values(7 + k, [1000 * k, 60 + k])
        self.reader.tail()

    def test_only_bytes_are_bytes(self):
        writer = confluo.Log("schema packet\n").writer()
        for wrong in (60, [1, 2], "text", None, 1.5):
            with self.subTest(wrong=wrong):
                self.assertRaises(TypeError, writer.append, 0, 1000, wrong)
                self.assertRaises(TypeError, writer.append_many, [(0, 1000, FRAME), (0, 1000, wrong)])
        for wrong in (60, [1, 2], None):
            self.assertRaises(TypeError, confluo.check, wrong)
            self.assertRaises(TypeError, self.reader.ask_text, wrong)
        self.assertEqual(writer.room().covered, 0)
        for k, right in enumerate((FRAME, bytearray(FRAME), memoryview(FRAME)[::2])):
            self.assertEqual(writer.append(k, 1000, right), k)
            self.assertEqual(confluo.check(b"schema packet\n"), confluo.check(bytearray(b"schema packet\n")))

    def test_answers_are_read_one_by_one(self):
        answer = self.reader.ask("some")
        rows = iter(answer)
        self.assertEqual((next(rows), next(rows), next(rows), next(rows, None)), ((0,), (1,), (2,), None))
        self.assertEqual(
            (list(answer.numbers), answer.words, answer.rows), ([0, 1, 2], [0, 1, 2], list(answer))
        )
        self.assertEqual(list(self.reader.ask("all")), [confluo.Quad(3, 183, 60, 62)])
        self.assertEqual(answer, confluo.Answer(3, confluo.Kind.PLACES, [0, 1, 2]))

    def test_records_are_read_one_by_one(self):
        rows = self.reader.rows()
        self.assertEqual(next(rows), confluo.Row(7, {"ts": 0, "len": 60}))
        self.assertEqual([it.number for it in rows], [8, 9])
        self.assertEqual([it.number for it in self.reader.rows([2, 0])], [9, 7])
        with self.assertRaises(confluo.Error):
            list(self.reader.rows([3]))

    def test_spans_ask_logs_as_one(self):
        logs = [confluo.Log(SETUP, capacity=2) for _ in range(3)]
        for k in range(6):
            with logs[k // 2].writer() as writer:
                writer.append_values(k, [1000 * k, 60 + k])
        first = logs[0].reader()
        with confluo.Span(first) as span:
            with self.assertRaises(confluo.Error) as caught:
                first.tail()
            self.assertEqual(caught.exception.code, confluo.Code.NOTHING)
            span.add(logs[1].reader())
            self.assertEqual((len(span), span.tail(), span.ask("some").words), (2, 4, [0, 1, 2, 3]))
            span.add(logs[2].reader())
            self.assertEqual(span.ask_seen("some").words, [0, 1, 2, 3])
            self.assertEqual(span.ask("all").rows, [confluo.Quad(6, 375, 60, 65)])
            self.assertEqual(span.row(3), confluo.Row(3, {"ts": 3000, "len": 63}))
            self.assertEqual([it.number for it in span.rows()], list(range(6)))
            large = confluo.Log(SETUP, capacity=6)
            with large.writer() as writer:
                for k in range(6):
                    writer.append_values(k, [1000 * k, 60 + k])
            reader = large.reader()
            self.assertEqual((reader.tail(), span.report()), (6, reader.report()))
            span.drop_first(), span.drop_first()
            self.assertEqual((len(span), span.ask("some").words), (1, [0, 1]))
            other = confluo.Log(SETUP, capacity=3).reader()
            cases = [
                (confluo.Code.ONE_LOG, span.drop_first),
                (confluo.Code.UNLIKE, lambda: span.add(other)),
                (confluo.Code.NOTHING, lambda: span.add(first)),
                (confluo.Code.NOTHING, lambda: confluo.Span(first)),
                (confluo.Code.NO_QUESTION, lambda: span.ask(7)),
                (confluo.Code.NO_LANE, lambda: span.groups(0)),
                (confluo.Code.NO_ROW, lambda: span.row(2)),
            ]
            for code, call in cases:
                with self.subTest(code=code), self.assertRaises(confluo.Error) as caught:
                    call()
                self.assertEqual(caught.exception.code, code)
            self.assertEqual(other.tail(), 0)

    def test_records_are_a_frame(self):
        try:
            import pandas  # noqa: F401
        except ImportError:
            self.assertRaisesRegex(ImportError, "pandas is missing", self.reader.to_frame)
            self.skipTest("pandas is missing: apt-get install python3-pandas")
        frame = self.reader.to_frame()
        self.assertEqual(list(frame.columns), ["number", "ts", "len"])
        self.assertEqual([str(it) for it in frame.dtypes], ["uint32", "uint64", "uint32"])
        self.assertEqual(frame.values.tolist(), [[7, 0, 60], [8, 1000, 61], [9, 2000, 62]])
        self.assertEqual(len(self.reader.to_frame([])), 0)
        self.assertEqual(self.reader.ask("all").to_frame().values.tolist(), [[3, 183, 60, 62]])

    def test_errors_have_words(self):
        with self.assertRaises(confluo.Error) as caught:
            self.reader.ask(7)
        self.assertEqual(str(caught.exception), "the setup has no such question, or the line says none")
        with self.assertRaises(confluo.SetupError) as caught:
            confluo.check("schema packet\nindex\n")
        said = f"the setup is faulty: line 2, code 3: {errors.RULES[3]}"
        self.assertEqual(str(caught.exception), said)
        with self.assertRaises(confluo.SetupError) as caught:
            self.reader.ask_text("ask")
        self.assertEqual(caught.exception.line, 1)

    def test_a_code_of_a_later_library(self):
        self.assertEqual(confluo.Error(99).code, 99)
        self.assertEqual(str(confluo.Error(99)), "no code of confluo")
        self.assertIs(confluo.Error(6).code, confluo.Code.FULL)

    def test_all_methods_are_typed(self):
        for module in (answers, calls, errors, logs, confluo.names):
            for name, it in list(vars(module).items()):
                if getattr(it, "__module__", None) != module.__name__:
                    continue
                held = vars(it).items() if isinstance(it, type) else [(name, it)]
                for method, call in held:
                    call = call.fget if isinstance(call, property) else call
                    if (
                        not callable(call)
                        or not hasattr(call, "__code__")
                        or call.__module__ != module.__name__
                    ):
                        continue
                    names = call.__code__.co_varnames[: call.__code__.co_argcount]
                    with self.subTest(method=f"{name}.{method}"):
                        self.assertIn("return", call.__annotations__)
                        self.assertLessEqual(set(names) - {"self"}, set(call.__annotations__))
        self.assertTrue(pathlib.Path(confluo.__file__).with_name("py.typed").exists())
        self.assertTrue(typing.get_type_hints(confluo.Frame))


if __name__ == "__main__":
    unittest.main()
