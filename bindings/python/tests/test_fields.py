"""Requests made of their fields, and reports read into theirs: each subtype against octets that are written here by hand after
docs/PACKETS.md."""

import dataclasses
import pickle
import unittest

from rudlayog import Memory, Refusal, Report, Request, Route, Setup, Store, read
from rudlayog import reports as told
from rudlayog import requests as ask

SCI, HK = b"SCI     ", b"HK      "
HEADER = {"apid": 0x364, "count": 0x1203, "source": 0x0708, "acknowledgement": 9}

# Each subtype: the request, its number, its data, and the words of its instructions.
REQUESTS = [
    (ask.EnableStorage(("SCI",), **HEADER), 1, b"\1" + SCI, ["SCI"]),
    (ask.DisableStorage(("SCI", "HK"), **HEADER), 2, b"\2" + SCI + HK, ["SCI", "HK"]),
    (
        ask.AddReportTypes((Route(258, 3, 25, "SCI"), Route(4, 5, 6, "HK")), **HEADER),
        3,
        b"\2" + SCI + b"\1\2\3\x19" + HK + b"\0\4\5\6",
        ["SCI apid 258 service 3 subtype 25", "HK apid 4 service 5 subtype 6"],
    ),
    (ask.DeleteReportTypes((Route(258, 3, 25, "SCI"),), **HEADER), 4, b"\1" + SCI + b"\1\2\3\x19", ["SCI apid 258 service 3 subtype 25"]),
    (ask.ReportControl(("SCI",), **HEADER), 5, b"\1" + SCI, ["SCI"]),
    (
        ask.StartRetrieval((ask.TimeRange("SCI", first=0x0102030405060708, last=0x1112131415161718),), **HEADER),
        9,
        b"\1" + SCI + bytes.fromhex("0102030405060708 1112131415161718"),
        ["SCI from 72623859790382856 to 1230066625199609624"],
    ),
    (
        ask.DeleteContent((ask.TimeLimit("SCI", last=0x1112131415161718),), **HEADER),
        11,
        b"\1" + SCI + bytes.fromhex("1112131415161718"),
        ["SCI up to 1230066625199609624"],
    ),
    (ask.SummariseContent(("SCI",), **HEADER), 12, b"\1" + SCI, ["SCI"]),
    (ask.AbortRetrieval(("SCI",), **HEADER), 17, b"\1" + SCI, ["SCI"]),
    (ask.ReportStatus(**HEADER), 18, b"", []),
    (
        ask.CreateStores((ask.Configuration("SCI", size=0x01020304, channel=7), ask.Configuration("HK", 5, "circular", 1)), **HEADER),
        20,
        b"\2" + SCI + b"\1\2\3\4\1\7" + HK + b"\0\0\0\5\0\1",
        ["SCI size 16909060 type bounded channel 7", "HK size 5 type circular channel 1"],
    ),
    (ask.DeleteStores(("SCI",), **HEADER), 21, b"\1" + SCI, ["SCI"]),
    (ask.ReportConfiguration(**HEADER), 22, b"", []),
    (ask.ResizeStores((ask.Size("SCI", 0x01020304),), **HEADER), 25, b"\1" + SCI + b"\1\2\3\4", ["SCI size 16909060"]),
    (ask.ChangeToCircular(("SCI",), **HEADER), 26, b"\1" + SCI, ["SCI"]),
    (ask.ChangeToBounded(("SCI",), **HEADER), 27, b"\1" + SCI, ["SCI"]),
    (ask.ChangeChannel((ask.Channel("SCI", 5),), **HEADER), 28, b"\1" + SCI + b"\5", ["SCI channel 5"]),
]

FIELDS = {"moment": 0x1112131415161718, "apid": 0x364, "count": 0x1203, "counter": 0x0506, "destination": 0x0708, "reference": 9}

# Each subtype: its number, its data, and the report.
REPORTS = [
    (
        6,
        SCI + b"\0\2" + b"\1\2\3\x19" + b"\0\4\5\6",
        told.Control(**FIELDS, store="SCI", rows=(told.ReportType(258, 3, 25), told.ReportType(4, 5, 6))),
    ),
    (
        13,
        b"\2" + SCI + bytes.fromhex("0102030405060708 2122232425262728 31323334") + HK + bytes(20),
        told.Summaries(**FIELDS, entries=(told.Summary("SCI", 0x0102030405060708, 0x2122232425262728, 0x31323334), told.Summary("HK", 0, 0, 0))),
    ),
    (19, b"\2" + SCI + b"\1\0" + HK + b"\0\1", told.Statuses(**FIELDS, entries=(told.Status("SCI", 1, 0), told.Status("HK", 0, 1)))),
    (
        23,
        b"\2" + SCI + b"\1\2\3\4\1\7" + HK + b"\0\0\0\5\0\1",
        told.Configurations(**FIELDS, entries=(ask.Configuration("SCI", 0x01020304, "bounded", 7), ask.Configuration("HK", 5, "circular", 1))),
    ),
]


def telecommand(subtype, data):
    return bytes([0x1B, 0x64, 0xD2, 0x03]) + (4 + len(data)).to_bytes(2, "big") + bytes([0x29, 15, subtype, 7, 8]) + data


def telemetry(subtype, data, service=15):
    return (
        bytes([0x0B, 0x64, 0xD2, 0x03])
        + (14 + len(data)).to_bytes(2, "big")
        + bytes([0x29, service, subtype, 5, 6, 7, 8])
        + bytes.fromhex("1112131415161718")
        + data
    )


class Requests(unittest.TestCase):
    def test_each_subtype(self):
        for request, subtype, data, words in REQUESTS:
            with self.subTest(subtype=subtype):
                self.assertEqual(request.write(), telecommand(subtype, data))
                self.assertEqual(bytes(request), request.write())
                self.assertEqual(type(request).SUBTYPE, subtype)
                # The library reads it again.
                self.assertEqual([line.split(" ", 5)[5] for line in read([bytes(request)]).lines[2:]], words)

    def test_values(self):
        for request, *_ in REQUESTS:
            self.assertEqual(pickle.loads(pickle.dumps(request)), request)
            self.assertEqual(hash(dataclasses.replace(request)), hash(request))
            self.assertTrue(type(request).__doc__.startswith(f"Subtype {request.SUBTYPE}: "))
            with self.assertRaises(dataclasses.FrozenInstanceError):
                request.apid = 1
        self.assertEqual(ask.EnableStorage(["SCI"], apid=1), ask.EnableStorage(("SCI",), apid=1))
        self.assertNotEqual(ask.EnableStorage(("SCI",), apid=1), ask.DisableStorage(("SCI",), apid=1))
        self.assertEqual(bytes(ask.CreateStores((ask.Configuration("SCI", 1, "2"),), apid=1))[-2:], b"\2\0")

    def test_numbers_that_do_not_fit(self):
        for name, most in {"apid": 65535, "count": 65535, "source": 65535, "acknowledgement": 255}.items():
            for wrong in (-1, most + 1, 1.0, None, True):
                with self.assertRaisesRegex(ValueError, f"^{name} is {wrong!r}, "):
                    ask.ReportStatus(**{"apid": 1, name: wrong})
        for kind, listed, name in (
            (ask.AddReportTypes, (Route(65536, 3, 25, "SCI"),), "apid"),
            (ask.AddReportTypes, (Route(1, 256, 25, "SCI"),), "service"),
            (ask.AddReportTypes, (Route(1, 3, -1, "SCI"),), "subtype"),
            (ask.StartRetrieval, (ask.TimeRange("SCI", -1, 2),), "first"),
            (ask.StartRetrieval, (ask.TimeRange("SCI", 1, 2**64),), "last"),
            (ask.DeleteContent, (ask.TimeLimit("SCI", 2**64 + 7),), "last"),
            (ask.CreateStores, (ask.Configuration("SCI", 2**32),), "size"),
            (ask.CreateStores, (ask.Configuration("SCI", 1, "ring"),), "type"),
            (ask.CreateStores, (ask.Configuration("SCI", 1, "256"),), "type"),
            (ask.CreateStores, (ask.Configuration("SCI", 1, "bounded", 256),), "channel"),
            (ask.ResizeStores, (ask.Size("SCI", -1),), "size"),
            (ask.ChangeChannel, (ask.Channel("SCI", 256),), "channel"),
            (ask.EnableStorage, ("TOO-LONG-1",), "store"),
            (ask.EnableStorage, ("S\0",), "store"),
            (ask.EnableStorage, ("É",), "store"),
        ):
            with self.subTest(kind=kind, name=name), self.assertRaisesRegex(ValueError, f"^{name} is "):
                kind(listed, apid=1)

    def test_other_instructions(self):
        for kind, wrong in ((ask.EnableStorage, "SCI"), (ask.EnableStorage, (1,)), (ask.StartRetrieval, ("SCI",)), (ask.ResizeStores, 7)):
            with self.assertRaises(TypeError):
                kind(wrong, apid=1)

    def test_what_is_no_request(self):
        for request, name in (
            (ask.ReportStatus(apid=2047), "Idle"),
            (ask.ReportStatus(apid=1, count=16384), "Limit"),
            (ask.ReportStatus(apid=1, acknowledgement=16), "Limit"),
            (ask.EnableStorage((), apid=1), "CountMismatch"),
            (ask.EnableStorage(("SCI",) * 256, apid=1), "CountMismatch"),
            (Request(apid=1), "UnknownSubtype"),
        ):
            with self.assertRaises(Refusal) as caught:
                bytes(request)
            self.assertEqual(caught.exception.name, name)
        self.assertEqual(len(bytes(ask.EnableStorage(("SCI",) * 255, apid=1))), 12 + 255 * 8)


class Reports(unittest.TestCase):
    def test_each_subtype(self):
        for subtype, data, report in REPORTS:
            with self.subTest(subtype=subtype):
                self.assertEqual(Report.read(telemetry(subtype, data)), report)
                self.assertEqual(pickle.loads(pickle.dumps(report)), report)
                self.assertTrue(type(report).__doc__.startswith(f"Subtype {subtype}: "))
                hash(report)

    def test_many_rows(self):
        rows = b"".join(number.to_bytes(2, "big") + b"\3\4" for number in range(16377))
        report = Report.read(telemetry(6, HK + (16377).to_bytes(2, "big") + rows))
        self.assertEqual(report.rows, tuple(told.ReportType(number, 3, 4) for number in range(16377)))

    def test_values_that_are_not_allowed(self):
        report = Report.read(telemetry(23, b"\1\0\xff2345 8\0\0\0\0\2\x09"))
        self.assertEqual(report.entries, (ask.Configuration("\0\xff2345 8", 0, "2", 9),))

    def test_what_is_no_report(self):
        whole = telemetry(19, b"\1" + SCI + b"\1\0")
        for octets, name in (
            (whole[:-1], "Short"),
            (whole + b"\0", "HexLine"),
            (telemetry(19, b"\2" + SCI + b"\1\0"), "CountMismatch"),
            (telemetry(20, b"\0"), "UnknownSubtype"),
            (telemetry(19, b"\0", service=14), "NotSt15"),
            (bytes(ask.ReportStatus(apid=1)), "NotSt15"),
        ):
            with self.assertRaises(Refusal) as caught:
                Report.read(octets)
            self.assertEqual(caught.exception.name, name)
        with self.assertRaisesRegex(Refusal, f"found {len(whole) - 1} octets, and the packet data length says {len(whole)}"):
            Report.read(whole[:-1])
        with self.assertRaises(TypeError):
            Report.read("0801")


class Memories(unittest.TestCase):
    def test_a_memory_in_words(self):
        with Memory(Setup.of([Store("SCI", size=4)], [Route(1, 3, 25, "SCI")])) as memory:
            self.assertEqual(memory.apply(1, ask.CreateStores((ask.Configuration("HK", 2, "circular", 3),), apid=100)), (None,))
            self.assertEqual(memory.apply(2, ask.EnableStorage(("HK", "CAM"), apid=100))[0], None)
            self.assertEqual(memory.apply(2, ask.EnableStorage(("CAM",), apid=100))[0].name, "NoSuchStore")
            self.assertEqual(memory.apply(3, ask.AddReportTypes((Route(2, 3, 26, "HK"),), apid=100)), (None,))
            self.assertEqual(memory.apply(4, ask.ReportControl(("HK",), apid=100, source=7)), (None,))
            self.assertEqual(memory.apply(5, ask.ReportStatus(apid=100)), ())
            self.assertEqual(memory.apply(6, ask.ReportConfiguration(apid=100)), ())
            packet = bytes([0x08, 2, 0xC0, 0, 0, 14, 0x20, 3, 26]) + bytes(12)
            for store, time in (("HK", 9), ("HK", 10), ("SCI", 9)):
                self.assertEqual(memory.offer(store, 9, packet).time, time)
            self.assertEqual(memory.apply(10, ask.SummariseContent(("HK", "SCI"), apid=100)), (None, None))
            control, status, configuration, summary = memory.read_reports()
            self.assertEqual((control.moment, control.destination, control.store, control.rows), (4, 7, "HK", (told.ReportType(2, 3, 26),)))
            self.assertEqual(status.entries, (told.Status("SCI", 1, 0), told.Status("HK", 1, 0)))
            self.assertEqual(configuration.entries, (ask.Configuration("SCI", 4), ask.Configuration("HK", 2, "circular", 3)))
            self.assertEqual((summary.moment, summary.count), (10, 3))
            self.assertEqual(summary.entries, (told.Summary("HK", 9, 10, 2), told.Summary("SCI", 9, 9, 1)))
            self.assertEqual(memory.waiting(), 0)


if __name__ == "__main__":
    unittest.main()
