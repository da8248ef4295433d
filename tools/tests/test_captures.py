"""Captures and CSV files are read as the program reads them, and their faults are found with their place."""

import io
import ipaddress
import pathlib
import tempfile
import unittest

from cases import BLOCKS, CAPTURES, CSVS, RECORDS, WHOLE
from support import EXAMPLES, INCIDENTS, confluo, enhanced, frame, interface, needs_program, pcap, section

from confluo_report.captures import CaptureFault, Reading, frames
from confluo_report.explain_capture import find_fault
from confluo_report.frames import packet_row
from confluo_report.nodes import Sizes, need_of, sizes_for
from confluo_report.recordfiles import records
from confluo_report.rows import rows_of
from confluo_report.setups import PACKET, parse_setup

CSV_FORMS = (
    (b"0, 80\n", [("0", " 80")]),
    (b"0,1\n \n", [("0", "1"), (" ",)]),
    (b'8"0\n', [('8"0',)]),
    (b' "80"\n', [(' "80"',)]),
    (b'"80"\n', [("80",)]),
    (b'"8"0\n', [("80",)]),
    (b'"8""0"\n', [('8"0',)]),
    (b'"80,\n1\n', [("80,\n1\n",)]),
    (b'""\n', [("",)]),
    (b"0,80,\n", [("0", "80", "")]),
    (b"\xef\xbb\xbfa\r\n\r\nb", [("a",), ("b",)]),
    (b'a,"b"\rc\n\n"d"', [("a", "b"), ("c",), ("d",)]),
)


def dump_line(number: int, row: tuple) -> str:
    words = []
    for attribute, value in zip(PACKET, row):
        text = str(value) if isinstance(value, int) else f"0x{value.hex()}"
        if attribute.name in ("src", "dst"):
            text = str(ipaddress.IPv4Address(value))
        words.append(f"{attribute.name}={text}")
    return " ".join([str(number), *words])


class Captures(unittest.TestCase):
    def test_each_code_with_its_record_and_byte(self) -> None:
        self.assertEqual({code for _, _, code, _ in CAPTURES}, {*range(1, 6), 21, 22, 23, 24, 25, 27, 28})
        for data, record, code, at in CAPTURES:
            with self.subTest(code=code), self.assertRaises(CaptureFault) as caught:
                list(frames(io.BytesIO(data)))
            fault = caught.exception
            self.assertEqual((fault.record, fault.code, fault.at), (record, code, at))

    def test_a_file_that_is_cut_off_ends_with_its_last_whole_record(self) -> None:
        for data, header in ((WHOLE, 24), (BLOCKS + enhanced(frame()) + enhanced(frame()), 28)):
            ends = [it for it in range(len(data) + 1) if not self.cut_of(data[:it])[1]]
            for at in range(len(data) + 1):
                count, code = self.cut_of(data[:at])
                reading = Reading(may_be_cut=True)
                if at < header:
                    with self.assertRaises(CaptureFault):
                        list(frames(io.BytesIO(data[:at]), reading))
                    continue
                self.assertEqual(len(list(frames(io.BytesIO(data[:at]), reading))), count)
                self.assertEqual(reading.cut, None if at in ends else count)
        for bad, record, code, _ in CAPTURES:
            if code in (5, 25):
                continue
            with self.assertRaises(CaptureFault) as caught:
                list(frames(io.BytesIO(bad), Reading(may_be_cut=True)))
            self.assertEqual((caught.exception.record, caught.exception.code), (record, code))

    def test_a_watched_section_has_at_most_65536_interfaces(self) -> None:
        full = BLOCKS + interface() * 65535 + enhanced(frame(), number=65535)
        for more, code in ((section() + interface(), None), (interface(), 29)):
            for reading in (Reading(), Reading(long=True), Reading(long=True, may_be_cut=True)):
                try:
                    self.assertEqual(len(list(frames(io.BytesIO(full + more), reading))), 1)
                    self.assertTrue(code is None or not reading.long)
                except CaptureFault as fault:
                    self.assertEqual((fault.record, fault.code, fault.at), (1, code, len(full)))

    @staticmethod
    def cut_of(data: bytes) -> tuple[int, int]:
        """The number of whole records, and the code of the fault behind them, if there is one."""
        found = []
        try:
            for it in frames(io.BytesIO(data)):
                found.append(it)
        except CaptureFault as fault:
            return fault.record, fault.code
        return len(found), 0

    def test_links(self) -> None:
        for link in (*range(300), 65535):
            data = pcap([(1, frame())], link=link)
            self.assertEqual(self.cut_of(data)[1], 0 if link in (1, 113) else 3)
            blocks = section() + interface(link) + enhanced(frame())
            self.assertEqual(self.cut_of(blocks)[1], 0 if link in (1, 113) else 23)

    def test_rows_are_those_of_the_stored_dumps(self) -> None:
        for dump in (EXAMPLES / "formats").glob("*.dump"):
            capture = next(it for it in dump.parent.glob(f"{dump.stem}.pcap*"))
            with capture.open("rb") as file:
                lines = [dump_line(it.number, packet_row(it)) for it in frames(file)]
            self.assertEqual([f"records {len(lines)}", *lines], dump.read_text().splitlines())

    def test_record_files(self) -> None:
        for data, fields in CSV_FORMS:
            self.assertEqual([it.fields for it in records(data)], fields, data)
        setup = parse_setup(RECORDS.encode())
        with tempfile.TemporaryDirectory() as folder:
            path = pathlib.Path(folder, "c")
            for data, record, code, at in CSVS:
                path.write_bytes(data)
                fault = find_fault(str(path), setup)
                assert fault
                self.assertEqual((fault.record, fault.code, fault.at), (record, code, at))

    def test_nodes_by_hand(self) -> None:
        setup = parse_setup(b"schema records ts:u64,src:u32\nindex s src\n")
        data = "ts,src\n0,9.255.255.255\n0,10.0.0.0\n0,10.255.255.255\n0,11.0.0.0\n"
        with tempfile.TemporaryDirectory() as folder:
            path = pathlib.Path(folder, "c")
            path.write_text(data)
            need = need_of(setup, rows_of(setup, str(path)))
        self.assertEqual((need.records, need.nodes[65536]), (4, 24))
        self.assertEqual(sizes_for(need), Sizes(65536, 1, 24))

    @needs_program
    def test_the_program_needs_as_many_nodes(self) -> None:
        for name in ("syn_flood", "full_link"):
            setup, capture = INCIDENTS / f"{name}.setup", INCIDENTS / f"{name}.pcap"
            parsed = parse_setup(setup.read_bytes())
            most = need_of(parsed, rows_of(parsed, str(capture)), 512).nodes[512]
            words = ("run", "--setup", setup, "--writers", "1", "--capacity", "512", capture, "--nodes")
            self.assertEqual(confluo(*words, most).status, 0)
            self.assertEqual(confluo(*words, most - 1).out, f"nodes: more than {most - 1} nodes\n")


if __name__ == "__main__":
    unittest.main()
