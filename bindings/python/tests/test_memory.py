"""A memory with its storage service: on the example of the requests, and on packets that are recorded, offered and given. What is wanted
stands in docs/PACKETS.md and in the pages of the examples."""

import ctypes
import pickle
import unittest
from pathlib import Path

from interrupting import interrupted_by
from rudlayog import Fate, Memory, Refusal, Retrieval, Route, Setup, Store, StoreState, Tally, _library

REQUESTS = Path(__file__).resolve().parents[3] / "examples" / "requests"
SETUP = Setup.of(
    [Store("SCI", size=2), Store("HK", size=2, type="circular", channel=1)],
    routes=[Route(1, 3, 25, "HK"), Route(1, 3, 25, "SCI"), Route(2, 3, 25, "HK")],
)


def telemetry(count, apid=1):
    """Telemetry of service 3, subtype 25, with no data (CCSDS 133.0-B, 4.1.3; ECSS-E-ST-70-41C, 7.4)."""
    return bytes([0x08, apid, 0xC0, count, 0, 14, 0x20, 3, 25]) + bytes(12)


def telecommand(subtype, *instructions):
    """A telecommand of the storage service with these instructions."""
    data = bytes([len(instructions)]) + b"".join(instructions) if instructions else b""
    return bytes([0x18, 100, 0xC0, 0]) + (4 + len(data)).to_bytes(2, "big") + bytes([0x20, 15, subtype, 0, 7]) + data


def name(store):
    return store.encode().ljust(8)


def times(*moments):
    return b"".join(moment.to_bytes(8, "big") for moment in moments)


class Memories(unittest.TestCase):
    def refused(self, call, *given):
        with self.assertRaises(Refusal) as caught:
            call(*given)
        return caught.exception.name

    def test_requests_of_the_example(self):
        lines = []
        with Memory(REQUESTS / "setup.toml") as memory:
            for number, line in enumerate((REQUESTS / "requests.hex").read_text().splitlines(), 1):
                if not line:
                    continue
                try:
                    answers = memory.apply(number, bytes.fromhex(line))
                except Refusal as refusal:
                    lines.append(f"{number} refused {refusal.text()}")
                except ValueError:
                    lines.append(f"{number} refused 12 HexLine")
                else:
                    for place, answer in enumerate(answers, 1):
                        lines.append(f"{number}.{place} " + ("done" if answer is None else f"refused {answer.text()}"))
                    lines.extend(f"{number} report {packet.hex().upper()}" for packet in memory.reports())
        wanted = (REQUESTS / "answers.txt").read_text().splitlines()
        self.assertEqual([line for line in lines if "HexLine" not in line], [line for line in wanted if "HexLine" not in line])

    def test_packets_go_where_they_are_routed(self):
        with Memory(SETUP) as memory:
            self.assertEqual(memory.record(5, telemetry(1)), Tally(kept=2, lost=0, refused=0))
            self.assertEqual(memory.record(5, telemetry(2)), Tally(kept=2, lost=0, refused=0))
            # The bounded store is full, and the circular one gives its oldest packet up.
            self.assertEqual(memory.record(9, telemetry(3)), Tally(kept=1, lost=2, refused=0))
            self.assertEqual(memory.record(9, telemetry(4, apid=2)), Tally(kept=1, lost=1, refused=0))
            self.assertEqual(memory.record(9, telemetry(5, apid=3)), Tally(kept=0, lost=0, refused=0))
            self.assertEqual(memory.record(9, telecommand(18)), Tally(kept=0, lost=0, refused=0))
            self.assertEqual(memory.apply(10, telecommand(2, name("HK"))), (None,))
            self.assertEqual(memory.record(11, telemetry(6)), Tally(kept=0, lost=1, refused=1))

    def test_a_bound_on_the_reports_that_wait(self):
        one = name("SCI")
        with Memory(SETUP, most_waiting=2) as memory:
            self.assertEqual(self.refused(memory.apply, 1, telecommand(5, one, one, one)), "TooManyReports")
            self.assertEqual(memory.apply(1, telecommand(5, one, one)), (None, None))
            for request in (telecommand(5, one), telecommand(12, one), telecommand(18), telecommand(22)):
                self.assertEqual(self.refused(memory.apply, 1, request), "TooManyReports")
            # A request that has no report is carried out.
            self.assertEqual(memory.apply(1, telecommand(2, one)), (None,))
            self.assertFalse(memory.state("SCI").storage)
            self.assertEqual((memory.waiting(), memory.refused()), (2, 0))
            # The octets are tested before the bound.
            for short in (telecommand(18)[:10], telecommand(5, one, one, one)[:20]):
                self.assertEqual(self.refused(memory.apply, 1, short), "Short")
            # The refused ones were not counted: the sequence counts of the packets go on (CCSDS 133.0-B, 4.1.3.4).
            first = next(memory.reports())
            self.assertEqual(memory.apply(1, telecommand(12, one, one)), (None, None))
            self.assertEqual([packet[3] for packet in [first, *memory.reports()]], [0, 1, 2])
        with Memory(SETUP, most_waiting=0) as memory:
            self.assertEqual(self.refused(memory.apply, 1, telecommand(18)), "TooManyReports")
            self.assertEqual(memory.apply(1, telecommand(2, one)), (None,))
        with Memory(SETUP) as memory:
            self.assertEqual(memory.apply(1, telecommand(5, one, one, one)), (None, None, None))
        for bound in (-1, 2**64, 1.5, "2"):
            with self.assertRaisesRegex(ValueError, "^most_waiting is .*, and a whole number from 0 to 2\\^64 - 1 is expected$"):
                Memory(SETUP, most_waiting=bound)

    def test_packets_in_any_holder(self):
        with Memory(SETUP) as memory:
            self.assertEqual(memory.record(5, bytearray(telemetry(1))).kept, 2)
            self.assertEqual(memory.offer("HK", 6, memoryview(telemetry(2))), Fate("kept", 6))
            self.assertEqual(memory.apply(7, bytearray(telecommand(2, name("HK")))), (None,))
            for call, given in ((memory.record, (8, "0801")), (memory.apply, (8, 18)), (memory.offer, ("HK", 8, "0801"))):
                with self.assertRaises(TypeError):
                    call(*given)

    def test_moments_out_of_range(self):
        # ctypes would take -1 for 2^64 - 1, and 2^64 + 7 for 7.
        with Memory(SETUP) as memory:
            for moment in (-1, 2**64, 2**64 + 7, 1.5, None, "1", True):
                for call in (
                    lambda: memory.offer("SCI", moment, telemetry(1)),
                    lambda: memory.record(moment, telemetry(1)),
                    lambda: memory.apply(moment, telecommand(18)),
                ):
                    with self.assertRaises(ValueError) as caught:
                        call()
                    self.assertEqual(str(caught.exception), f"now is {moment!r}, and a whole number from 0 to 2^64 - 1 is expected")
            self.assertEqual(list(memory.reports()), [])
            self.assertEqual(memory.offer("SCI", 0, telemetry(1)), Fate("kept", 1))
            self.assertEqual(memory.offer("SCI", 2**64 - 1, telemetry(1)), Fate("kept", 2**64 - 1))

    def test_words_in_another_order(self):
        with Memory(SETUP) as memory:
            with self.assertRaisesRegex(TypeError, "store is 7, and not the identifier of a store"):
                memory.offer(7, "SCI", telemetry(1))
            with self.assertRaisesRegex(ValueError, "now is 'SCI'"):
                memory.record("SCI", telemetry(1))
            with self.assertRaisesRegex(TypeError, "packet is 7, and not the octets of a packet"):
                memory.offer("SCI", 7, 7)
            with self.assertRaisesRegex(TypeError, "request is 'SCI', and not the octets of a packet"):
                memory.apply(7, "SCI")
            with self.assertRaisesRegex(TypeError, "store is b'HK'"):
                memory.next(b"HK")

    def test_octets_after_a_packet(self):
        with Memory(SETUP) as memory:
            # Telemetry without data has 21 octets.
            for packet, name, found in (
                (telemetry(1) + b"\0\0", "HexLine", "23 octets, and the packet data length says 21"),
                (telemetry(1)[:-1], "Short", "20 octets, and the packet data length says 21"),
                (b"\x08", "Short", None),
                (telemetry(1)[:6] + b"\x10" + telemetry(1)[7:], "PusVersion", None),
            ):
                with self.assertRaises(Refusal) as caught:
                    memory.record(1, packet)
                self.assertEqual((caught.exception.name, caught.exception.found), (name, found))
                self.assertTrue(str(caught.exception).endswith(found or caught.exception.advice))

    def test_a_handler_that_records(self):
        # A handler finds the memory between two calls of its thread, and neither waits for the other.
        with Memory(Setup.of([Store("HK", size=4, type="circular")], routes=[Route(1, 3, 25, "HK")])) as memory:
            handled = []
            with interrupted_by(lambda: handled.append(memory.record(0, telemetry(1)))):
                recorded = [memory.record(0, telemetry(1)) for _ in range(20_000)]
            self.assertTrue(handled)
            # Four packets found room, and each other one overwrote the oldest.
            self.assertEqual(sum(tally.lost for tally in recorded + handled), len(recorded) + len(handled) - 4)
            self.assertEqual({tally.kept for tally in recorded + handled}, {1})

    def test_fates(self):
        with Memory(SETUP) as memory:
            self.assertEqual(memory.offer("SCI", 7, telemetry(1)), Fate("kept", 7))
            # Times rise strictly.
            self.assertEqual(memory.offer("SCI", 7, telemetry(2)), Fate("kept", 8))
            self.assertEqual(memory.offer("SCI", 9, telemetry(3)), Fate("lost", None))
            for count, wanted in ((1, "kept"), (2, "kept"), (3, "kept over")):
                self.assertEqual(memory.offer("HK", 20 + count, telemetry(count)), Fate(wanted, 20 + count))

    def test_retrievals(self):
        with Memory(SETUP) as memory:
            for count in (1, 2, 3):
                memory.record(count, telemetry(count))
            self.assertEqual(self.refused(memory.next, "HK"), "Idle")
            self.assertEqual(memory.apply(4, telecommand(9, name("HK") + times(0, 2**64 - 1))), (None,))
            self.assertEqual(memory.next("HK"), (2, telemetry(2)))
            self.assertEqual(memory.next("HK"), (3, telemetry(3)))
            self.assertIsNone(memory.next("HK"))
            self.assertEqual(self.refused(memory.next, "HK"), "Idle")

    def test_states(self):
        with Memory(SETUP) as memory:
            self.assertEqual(memory.state("SCI"), StoreState("bounded", 2, 0, 0, 0, 0, True, None, 0, 0))
            for count in (1, 2, 3):
                memory.record(count, telemetry(count))
            # The bounded store keeps the first two, and the circular one the last two.
            self.assertEqual(memory.state("SCI"), StoreState("bounded", 2, 3, 2, 1, 0, True, None, 1, 2))
            self.assertEqual(memory.state("HK"), StoreState("circular", 2, 3, 2, 1, 0, True, None, 2, 3))
            memory.apply(4, telecommand(9, name("HK") + times(0, 8)))
            memory.next("HK")
            memory.apply(5, telecommand(11, name("SCI") + times(1)))
            memory.apply(6, telecommand(2, name("SCI")))
            self.assertEqual(memory.state("SCI"), StoreState("bounded", 2, 3, 1, 1, 1, False, None, 2, 2))
            self.assertEqual(memory.state("HK"), StoreState("circular", 2, 3, 2, 1, 0, True, Retrieval(0, 8, 2), 2, 3))
            self.assertEqual((self.refused(memory.state, "CAM"), self.refused(memory.state, "sci")), ("NoSuchStore", "BadId"))
            self.assertEqual(memory.waiting(), 0)
            memory.apply(7, telecommand(18))
            memory.apply(7, telecommand(22))
            self.assertEqual(memory.waiting(), 2)
            next(memory.reports())
            self.assertEqual(memory.waiting(), 1)
        with self.assertRaisesRegex(ValueError, "closed"):
            memory.state("SCI")

    def test_iterators_over_a_retrieval(self):
        with Memory(SETUP) as memory:
            for count in (1, 2):
                memory.record(count, telemetry(count))
            memory.apply(4, telecommand(9, name("HK") + times(0, 2**64 - 1)))
            self.assertEqual(next(memory.retrieved("HK")), (1, telemetry(1)))
            self.assertEqual(list(memory.retrieved("HK")), [(2, telemetry(2))])
            self.assertEqual(self.refused(list, memory.retrieved("HK")), "Idle")

    def test_refusals(self):
        with Memory(SETUP) as memory:
            self.assertEqual(self.refused(memory.offer, "sci", 1, telemetry(1)), "BadId")
            self.assertEqual(self.refused(memory.offer, "CAM", 1, telemetry(1)), "NoSuchStore")
            self.assertEqual(self.refused(memory.offer, "SCI", 1, telemetry(1)[:-1]), "Short")
            # The octets are tested before the store is looked for.
            for store in ("SCI", "CAM"):
                self.assertEqual(self.refused(memory.offer, store, 1, telemetry(1) + b"\0"), "HexLine")
            long = telemetry(1)[:4] + (14 + 1004).to_bytes(2, "big") + telemetry(1)[6:] + bytes(1004)
            self.assertEqual(self.refused(memory.offer, "SCI", 1, long), "TooLong")
            self.assertEqual(self.refused(memory.record, 1, telemetry(1) + b"\0"), "HexLine")
            self.assertEqual(self.refused(memory.apply, 1, telecommand(18) + b"\0"), "HexLine")
            self.assertEqual(self.refused(memory.apply, 1, telemetry(1)), "NotSt15")
            self.assertEqual(self.refused(memory.next, "CAM"), "NoSuchStore")
            answers = memory.apply(2, telecommand(2, name("SCI"), name("CAM")))
            self.assertEqual([answer and answer.name for answer in answers], [None, "NoSuchStore"])
            self.assertEqual(self.refused(memory.offer, "SCI", 3, telemetry(1)), "Disabled")
            self.assertEqual(list(memory.reports()), [])
        self.assertEqual(self.refused(Memory, "[[store]]\n"), "SetupField")

    def test_names_of_no_store(self):
        with Memory(SETUP) as memory:
            memory.apply(1, telecommand(9, name("SCI") + times(0, 255)))
            for store in ("", " ", "sci", "SCI ", "SCI     ", " SCI", "SCIENCE-1"):
                self.assertEqual(self.refused(memory.next, store), "BadId", store)
            for store in ("SC", "SCIENCE1"):
                self.assertEqual(self.refused(memory.next, store), "NoSuchStore", store)

    def test_reports_wait(self):
        with Memory(SETUP) as memory:
            memory.apply(1, telecommand(18))
            memory.apply(2, telecommand(22))
            memory.apply(3, telecommand(12, name("SCI")))
            small = ctypes.create_string_buffer(b"\xa5" * 20, 20)
            answer = _library.Answer()
            _library.rudlayog_memory_report(memory._handle, small, 20, answer)
            self.assertEqual((answer.status, small.raw), (_library.TOO_SMALL, b"\xa5" * 20))
            packets = list(memory.reports())
            self.assertEqual([packet[8] for packet in packets], [19, 23, 13])
            self.assertEqual(answer.length, len(packets[0]))
            # The sequence count runs over all reports.
            self.assertEqual([packet[3] for packet in packets], [0, 1, 2])
            self.assertEqual(list(memory.reports()), [])

    def test_small_buffers(self):
        with Memory(SETUP) as memory:
            answer, time = _library.Answer(), ctypes.c_uint64(7)
            memory.record(1, telemetry(1))
            memory.apply(1, telecommand(9, name("HK") + times(0, 9)))
            room = ctypes.create_string_buffer(_library.BLOCK)
            _library.rudlayog_memory_next(memory._handle, b"HK", 2, room, _library.BLOCK - 1, time, answer)
            self.assertEqual((answer.status, answer.length, time.value), (_library.TOO_SMALL, _library.BLOCK, 0))
            self.assertEqual(memory.next("HK"), (1, telemetry(1)))
            disable = telecommand(2, name("SCI"))
            _library.rudlayog_memory_apply(memory._handle, 2, disable, len(disable), room, _library.INSTRUCTIONS - 1, answer)
            self.assertEqual((answer.status, answer.length), (_library.TOO_SMALL, _library.INSTRUCTIONS))
            self.assertEqual(memory.offer("SCI", 3, telemetry(2)).kind, "kept")

    def test_closed(self):
        memory = Memory(SETUP)
        opened = _library.Answer()
        text = bytes(SETUP)
        memory.record(1, telemetry(1))
        _library.rudlayog_memory_open(memory._handle, text, len(text), opened)
        self.assertEqual(opened.status, _library.OPEN)
        self.assertEqual(memory.record(1, telemetry(1)).kept, 2)
        memory.close()
        memory.close()
        for call, given in ((memory.offer, ("SCI", 1, telemetry(1))), (memory.record, (1, telemetry(1))), (memory.next, ("SCI",))):
            with self.assertRaisesRegex(ValueError, "closed"):
                call(*given)
        with self.assertRaises(TypeError):
            pickle.dumps(memory)


if __name__ == "__main__":
    unittest.main()
