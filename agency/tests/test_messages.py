#!/usr/bin/python3
"""What is mended in messages, and the form in which they are posted. Expected dates and forms follow from the references, worked by hand."""

from __future__ import annotations

import random
import unittest
from datetime import date, datetime, timedelta
from zoneinfo import ZoneInfo

from harness import message

from gtfs_realtime_pb2 import FeedEntity, FeedMessage
from messages import MessageError, Source, joined, posted_form, read, state_after
from trips import Trip, Trips

BRUSSELS = ZoneInfo("Europe/Brussels")
DAY = date(2026, 12, 1)
DAILY = frozenset(DAY + timedelta(days=number) for number in range(8))


def at(text: str) -> int:
    return int(datetime.fromisoformat(text).replace(tzinfo=BRUSSELS).timestamp())


def clock(hours: int, minutes: int) -> int:
    return hours * 3600 + minutes * 60


TRIPS = Trips(
    {
        "morning": Trip("w", clock(8, 0), clock(9, 0), False),
        "night": Trip("w", clock(23, 50), clock(24, 40), False),
        "once": Trip("first", clock(23, 50), clock(24, 40), False),
        "every": Trip("w", clock(6, 0), clock(7, 0), True),
    },
    {"w": DAILY, "first": frozenset([DAY])},
    BRUSSELS,
)


def runs(body: bytes) -> list[str]:
    return [update.run for update in read(body, [TRIPS]).updates]


class Dates(unittest.TestCase):
    def test_a_trip_of_the_day_has_the_day(self) -> None:
        self.assertEqual(runs(message(at("2026-12-02 08:30"), {"morning": 60})), ["morning/20261202/-"])

    def test_a_trip_under_way_after_midnight_is_of_the_day_before(self) -> None:
        self.assertEqual(runs(message(at("2026-12-03 00:10"), {"night": 60})), ["night/20261202/-"])

    def test_the_same_trip_before_midnight_is_of_the_day(self) -> None:
        self.assertEqual(runs(message(at("2026-12-02 23:55"), {"night": 60})), ["night/20261202/-"])

    def test_a_trip_that_runs_on_one_day_alone_is_of_that_day(self) -> None:
        self.assertEqual(runs(message(at("2026-12-02 00:30"), {"once": 60})), ["once/20261201/-"])

    def test_a_trip_that_nobody_knows_is_of_the_day_of_the_message(self) -> None:
        found = read(message(at("2026-12-03 00:10"), {"ghost": 60}), [TRIPS])
        self.assertEqual([update.run for update in found.updates], ["ghost/20261203/-"])
        self.assertEqual((found.unknown, found.dated), (1, 1))

    def test_a_date_that_is_there_stays(self) -> None:
        self.assertEqual(runs(message(at("2026-12-03 00:10"), {"night": 60}, day="20261203")), ["night/20261203/-"])

    def test_the_date_is_posted(self) -> None:
        [update] = read(message(at("2026-12-03 00:10"), {"night": 60}), [TRIPS]).updates
        entity = FeedEntity()
        entity.ParseFromString(update.body)
        self.assertEqual(entity.trip_update.trip.start_date, "20261202")

    def test_in_the_hour_of_the_change_of_clocks(self) -> None:
        # 2026-10-25 02:30 comes twice in Brussels; times count from noon less twelve hours, which is 01:00 by the clock of before.
        trips = Trips({"night": Trip("w", clock(23, 50), clock(26, 40), False)}, {"w": frozenset([date(2026, 10, 24), date(2026, 10, 25)])}, BRUSSELS)
        self.assertEqual(trips.date_of("night", at("2026-10-25 01:30")), date(2026, 10, 24))


class Runs(unittest.TestCase):
    def test_a_headway_wants_a_start(self) -> None:
        found = FeedMessage()
        found.ParseFromString(message(at("2026-12-02 06:10"), {"every": 60}))
        self.assertEqual(read(found.SerializeToString(), [TRIPS]).passed_over, 1)
        found.entity[0].trip_update.trip.start_time = "6:10:00"
        self.assertEqual(runs(found.SerializeToString()), ["every/20261202/061000"])

    def test_relationships_that_serve_does_not_read_are_passed_over(self) -> None:
        found = FeedMessage()
        found.ParseFromString(message(at("2026-12-02 06:10"), {"morning": 60}))
        for relationship, count in ((0, 1), (1, 1), (3, 1), (2, 0), (5, 0), (7, 0)):
            found.entity[0].trip_update.trip.schedule_relationship = relationship
            self.assertEqual(len(read(found.SerializeToString(), [TRIPS]).updates), count, relationship)

    def test_unknown_fields_survive(self) -> None:
        body = message(at("2026-12-02 08:30"), {"morning": 60}, day="20261202")
        found = FeedMessage()
        found.ParseFromString(body)
        inner = bytes(found.entity[0].trip_update.SerializeToString()) + b"\xca\x3e\x03new"  # field 1001, as extensions have
        entity = b"\x0a\x01e\x1a" + bytes([len(inner)]) + inner
        whole = bytes(FeedMessage(header=found.header).SerializeToString()) + b"\x12" + bytes([len(entity)]) + entity
        [update] = read(whole, [TRIPS]).updates
        self.assertIn(b"\xca\x3e\x03new", update.body)

    def test_vehicles_alone_say_nothing_of_trips(self) -> None:
        vehicle = b"\x0a\x01v\x22\x02\x0a\x00"  # an entity with a VehiclePosition, field 4
        header = bytes(FeedMessage(header={"gtfs_realtime_version": "2.0", "timestamp": 1}).SerializeToString())
        self.assertTrue(read(header + b"\x12" + bytes([len(vehicle)]) + vehicle, [TRIPS]).says_nothing_of_trips())
        self.assertFalse(read(header, [TRIPS]).says_nothing_of_trips())

    def test_what_is_no_message_is_named(self) -> None:
        for body, says in ((b"", "the body is empty"), (b"<html><body>", "HTML"), (b'{"a":1}', "JSON"), (b"\xff\xff", "no message"), (b"\x1f\x8b\x08", "gzip")):
            with self.assertRaisesRegex(MessageError, says):
                read(body, [TRIPS])


class Forms(unittest.TestCase):
    def test_the_differential_form_leads_to_the_same_state(self) -> None:
        chance = random.Random(5)
        before: dict[str, bytes] = {}
        kinds = set()
        source = Source()
        for number in range(300):
            late = {f"t{trip}": chance.randrange(600) for trip in range(chance.randrange(60)) if chance.random() < 0.9}
            if number % 3:
                late = {update.entity: 60 for update in list(source.entities.values())[:1]} | {f"t{chance.randrange(60)}": 7}
            source = source.after(read(message(1000 + number, late, full=number % 3 == 0), [TRIPS]))
            after = joined([source])
            posted = posted_form(1000 + number, before, after)
            if posted is not None:
                kinds.add(posted.full)
                self.assertEqual(state_after(before, posted.body), after)
            else:
                self.assertEqual(before, after)
            before = after
        self.assertEqual(kinds, {True, False})

    def test_the_last_of_several_updates_of_a_run_counts(self) -> None:
        one, two = Source(), Source()
        one = one.after(read(message(10, {"morning": 60}, day="20261202"), [TRIPS]))
        two = two.after(read(message(10, {"morning": 90}, day="20261202"), [TRIPS]))
        [(run, body)] = joined([one, two]).items()
        self.assertEqual(run, "morning/20261202/-")
        self.assertEqual(body, joined([two])[run])

    def test_a_differential_message_takes_out_what_it_deletes(self) -> None:
        source = Source().after(read(message(10, {"a": 1, "b": 2}, day="20261202", full=False), [TRIPS]))
        source = source.after(read(message(11, {}, full=False, gone=["a"]), [TRIPS]))
        self.assertEqual(list(joined([source])), ["b/20261202/-"])

    def test_nothing_new_is_no_message(self) -> None:
        state = joined([Source().after(read(message(10, {"a": 1}), [TRIPS]))])
        self.assertIsNone(posted_form(11, state, dict(state)))


if __name__ == "__main__":
    unittest.main()
