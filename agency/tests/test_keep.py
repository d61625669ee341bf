#!/usr/bin/python3
"""keep.py as a whole, with a program that stands in for `lc`: restarts, kills, rollovers, and what goes wrong from outside."""

from __future__ import annotations

import json
import os
import random
import signal
import socket
import subprocess
import time
import unittest
from datetime import date, timedelta
from pathlib import Path
from typing import Any

from harness import AGENCY, PATIENCE, TOP, Running, Site, ask, make_feed, message, wait_for

TODAY = date.today()


class KeepTest(unittest.TestCase):
    def running(self, trips: int = 20, **keys: Any) -> Running:
        """A keep.py over a feed of trips that run from yesterday on."""
        run = Running(**keys)
        self.addCleanup(run.close)
        make_feed(run.folder / "feed", trips, TODAY - timedelta(days=1), 40)
        return run

    def posted(self, run: Running, count: int, seed: int = 1) -> list[dict[str, Any]]:
        """Posts messages, each a second after the one before."""
        chance = random.Random(seed)
        late = {f"T{number}": 60 for number in range(20)}
        outcomes = []
        for number in range(count):
            late[f"T{chance.randrange(20)}"] = chance.randrange(1, 900)
            outcomes.append(run.post(message(time.time() - 60 + number, late)))
        return outcomes


class Restarts(KeepTest):
    def test_every_memento_comes_back_after_kills_of_both(self) -> None:
        run = self.running().start()
        window = run.catalog()["current"]
        self.posted(run, 10)
        wait_for("all are admitted", lambda: (run.served() or {"came": 0})["came"] == 10)
        versions = run.versions(window)
        before = {version: run.memento(window, version) for version in versions}
        self.assertGreater(len(before), 5)
        os.kill(run.status()["windows"][0]["processes"][0]["pid"], signal.SIGKILL)
        wait_for("the process is there again", lambda: run.status()["windows"][0]["restarts"] >= 1 and run.served())
        self.assertEqual(before, {version: run.memento(window, version) for version in versions})
        run.kill()
        run.start()
        self.assertEqual(run.versions(window), versions)
        self.assertEqual(before, {version: run.memento(window, version) for version in versions})

    def test_sigterm_ends_it_cleanly(self) -> None:
        run = self.running().start()
        self.assertEqual(run.stop(), 0)
        self.assertTrue(run.log("ended"))
        self.assertEqual(run.log("serve ended"), [])



class Rollovers(KeepTest):
    def test_a_new_day_begins_a_window_and_the_old_one_is_served_until_it_is_over(self) -> None:
        run = self.running(days=4, overlap=1, reload="true").start()
        old = run.catalog()["current"]
        self.posted(run, 3)
        wait_for("all are admitted", lambda: len(run.versions(old)) == 4)
        before = {version: run.memento(old, version) for version in run.versions(old)}
        run.ahead(2 * 86_400)
        new = wait_for("the next window is served", lambda: run.catalog()["current"] if run.catalog()["current"] != old else None)
        self.assertEqual(before, {version: run.memento(old, version) for version in before})
        # The state of then is its first message.
        first = run.versions(new)[1]
        self.assertEqual(first, run.versions(old)[-1])
        self.assertEqual(run.memento(new, first), before[first])
        late = {f"T{number}": 5 for number in range(20)}
        self.assertEqual(run.post(message(time.time() + 2 * 86_400, late))["outcome"], "archived")
        wait_for("both windows have the message", lambda: len(run.versions(old)) == 5 and len(run.versions(new)) == 3)
        run.ahead(3 * 86_400)
        wait_for("the old window is gone", lambda: [one["window"] for one in run.catalog()["windows"]] == [new] and run.ports_of(old) == [])
        wait_for("its process is gone", lambda: len(run.status()["windows"]) == 1)

    def test_a_full_publisher_has_a_successor(self) -> None:
        run = self.running(most_messages=20, reload="true").start()
        old = run.catalog()["current"]
        outcomes = self.posted(run, 45)
        self.assertEqual({one["outcome"] for one in outcomes}, {"archived"})
        wait_for("there are successors", lambda: run.served() and len(run.catalog()["windows"]) >= 3)
        windows = run.catalog()["windows"]
        self.assertEqual([one["window"] for one in windows[:3]], [old, f"{old}-2", f"{old}-3"])
        self.assertEqual([one["takesMessages"] for one in windows], [False] * (len(windows) - 1) + [True])
        # Each begins with the state with which the one before it goes on.
        for one, other in zip(windows, windows[1:]):
            first = run.versions(other["window"])[1]
            self.assertEqual(run.memento(other["window"], first), run.memento(one["window"], first))
        every = {version for one in windows for version in run.versions(one["window"])[1:]}
        self.assertEqual(len(every), 45 - sum("nothing new" in one["says"] for one in outcomes))

    def test_sighup_takes_a_changed_feed(self) -> None:
        run = self.running(reload="true").start()
        old = run.catalog()["current"]
        pid = run.status()["windows"][0]["processes"][0]["pid"]
        self.posted(run, 2)
        make_feed(run.folder / "feed", 30, TODAY - timedelta(days=1), 40)
        run.signal(signal.SIGHUP)
        wait_for("a window with the new feed", lambda: run.catalog()["current"] == f"{old}-2")
        wait_for("another process", lambda: run.served() and pid not in [one["pid"] for window in run.status()["windows"] for one in window["processes"]])

    def test_sighup_with_a_wrong_config_changes_nothing(self) -> None:
        run = self.running().start()
        (run.folder / "config.toml").write_text("name = 3")
        run.signal(signal.SIGHUP)
        wait_for("it is said", lambda: run.log("CONFIG is not read anew"))
        self.assertTrue(run.served())

    def test_a_process_is_changed_over_before_it_is_used_up(self) -> None:
        run = self.running(renew=0.001, reload="true").start()
        window = run.catalog()["current"]
        [version] = run.versions(window)
        first = run.status()["windows"][0]["processes"][0]["pid"]
        while first in [one["pid"] for one in run.status()["windows"][0]["processes"]]:
            # Readers who ask one of the ports that the proxy knows are always answered.
            run.memento(window, version)
        self.assertEqual(run.log("serve ended"), [])

    def test_replicas_have_the_same(self) -> None:
        run = self.running(replicas=3, reload="true").start()
        window = run.catalog()["current"]
        self.posted(run, 5)
        wait_for("three are ready", lambda: run.served() and len(run.ports_of(window)) == 3)
        versions = run.versions(window)
        base = f"/tiny/{window}/memento/connections?version={versions[-1]}"
        wait_for("all have it", lambda: len({(ask(port, base).status, ask(port, base).body) for port in run.ports_of(window)}) == 1)
        self.assertEqual(ask(run.ports_of(window)[0], base).status, 200)


class FromOutside(KeepTest):
    def site(self) -> Site:
        site = Site()
        self.addCleanup(site.close)
        return site

    def test_a_source_that_fails_is_said_and_comes_back(self) -> None:
        site = self.site()
        faults: dict[str, Any] = {"status 500": 500, "HTML": b"<html>down</html>", "the body is empty": b"", "missing": b"\x0a\x00"}
        run = self.running(realtime=[site.url("/a")]).start()
        for says, document in faults.items():
            site.documents["/a"] = document
            wait_for(says, lambda: says in str(run.status().get("problems")))
            self.assertFalse(run.status()["ok"])
        site.documents["/a"] = message(time.time(), {"T1": 60})
        wait_for("it is green again", lambda: run.status()["ok"] and run.status()["windows"][0]["versions"] == 1)

    def test_two_full_feeds_are_joined(self) -> None:
        site = self.site()
        site.documents["/a"] = message(time.time() - 9, {"T1": 60})
        site.documents["/b"] = message(time.time() - 9, {"T2": 90})
        run = self.running(realtime=[site.url("/a"), site.url("/b")]).start()
        window = run.catalog()["current"]
        wait_for("both are there", lambda: run.served() and run.status()["came"] == 2)
        page = json.loads(run.memento(window, run.versions(window)[-1]))
        self.assertEqual(sorted(name.split("/")[0] for name in page), ["T1", "T2"])

    def test_what_is_left_out_is_counted_by_cause(self) -> None:
        run = self.running().start()
        vehicle = message(time.time(), {}) + b"\x12\x07\x0a\x01v\x22\x02\x0a\x00"
        good = message(time.time() - 10, {"T1": 60})
        causes = [(message(time.time() + 7200, {"T1": 1}), "ahead"), (good, "posted"), (message(time.time() - 20, {"T1": 9}), "not newer"), (vehicle, "no trip")]
        for body, says in causes:
            self.assertIn(says, run.post(body)["says"])
        self.assertEqual(run.status()["leftOut"], {"ahead of the clock": 1, "not newer": 1, "no trip updates": 1})
        self.assertIn("the same", run.post(vehicle)["says"])
        self.assertEqual(run.status()["archive"]["messages"], 4)

    def test_messages_of_another_timetable_are_said_loudly(self) -> None:
        run = self.running().start()
        run.post(message(time.time(), {"X1": 60, "X2": 60, "T1": 60}))
        wait_for("it is said", lambda: "does not know 2 of 3 trips" in str(run.status()["problems"]))
        self.assertTrue(run.log("MORE THAN HALF OF THE TRIPS ARE UNKNOWN: these messages are of another timetable"))

    def test_a_clock_that_jumps_begins_no_window_at_once(self) -> None:
        run = self.running(settle=3600.0).start()
        window = run.catalog()["current"]
        self.posted(run, 2)
        run.ahead(30 * 86_400)
        wait_for("it is said", lambda: "the clock jumped" in str(run.status()["problems"]))
        time.sleep(1.5)
        self.assertEqual([one["window"] for one in run.status()["windows"]], [window])
        run.ahead(0)
        wait_for("the jump back is said", lambda: len(run.log("the clock jumped")) == 2)
        self.assertEqual(run.post(message(time.time(), {"T9": 9}))["outcome"], "archived")

    def test_messages_of_a_directory(self) -> None:
        run = self.running(realtime=["spool"])
        (run.folder / "spool").mkdir()
        for number in range(3):
            (run.folder / "spool" / f"{number}.pb").write_bytes(message(time.time() - 9 + number, {"T1": number}))
        run.start()
        wait_for("all are taken", lambda: run.status()["came"] == 3 and not list((run.folder / "spool").iterdir()))

    def test_post_of_the_command_line(self) -> None:
        run = self.running().start()
        words = [str(AGENCY / "keep.py"), "config.toml", "--post", "-"]
        done = subprocess.run(words, cwd=run.folder, input=message(time.time(), {"T1": 60}), capture_output=True)
        self.assertEqual((done.returncode, done.stderr), (0, b""))
        self.assertIn(b"posted as full", done.stdout)
        done = subprocess.run(words, cwd=run.folder, input=b"<html>", capture_output=True)
        self.assertEqual(done.returncode, 1)
        self.assertIn(b"HTML", done.stdout)


class Refusals(KeepTest):
    def refused(self, run: Running, status: int) -> str:
        done = subprocess.run([str(AGENCY / "keep.py"), "config.toml"], cwd=run.folder, stdin=subprocess.DEVNULL, capture_output=True, text=True, timeout=PATIENCE)
        self.assertEqual(done.returncode, status, done.stderr)
        self.assertNotIn("Traceback", done.stderr)
        return done.stderr

    def test_an_unknown_key(self) -> None:
        self.assertIn("unknown key replica;", self.refused(self.running(replica=1), 2))

    def test_values_that_are_none(self) -> None:
        wrong: dict[str, Any] = {"days": 63, "first": "2026-12-01", "zone": "Mars/Base", "base": "https://lc.example/", "cuts": "often", "overlap": 7, "realtime": "url"}
        for key, value in wrong.items():
            self.assertIn(key, self.refused(self.running(**{key: value}), 2))

    def test_an_archive_of_another_feed(self) -> None:
        run = self.running().start()
        run.stop()
        run.configure(name="other")
        self.assertIn("this is the archive of tiny", self.refused(run, 1))
        (run.folder / "tiny.sqlite").write_bytes(b"something else" * 100)
        self.assertIn("not a database", self.refused(run, 1))

    def test_an_archive_that_another_has(self) -> None:
        run = self.running().start()
        self.assertIn("another keep.py has this archive", self.refused(run, 1))

    def test_no_feed(self) -> None:
        self.assertIn("nowhere", self.refused(self.running(feed="nowhere"), 1))

    def test_ports_that_are_taken(self) -> None:
        run = self.running()
        with socket.socket() as taken:
            taken.setsockopt(socket.SOL_SOCKET, socket.SO_REUSEADDR, 1)
            taken.bind(("127.0.0.1", run.ports[1]))
            taken.listen()
            run.start()
            self.assertEqual(run.ports_of(run.catalog()["current"]), [run.ports[2]])
        run.stop()
        with socket.socket() as taken:
            taken.setsockopt(socket.SOL_SOCKET, socket.SO_REUSEADDR, 1)
            taken.bind(("127.0.0.1", run.ports[0]))
            taken.listen()
            self.assertIn("status_port", self.refused(run, 1))


class Past(KeepTest):
    def test_a_window_that_is_over_is_served_again(self) -> None:
        run = self.running(days=4, overlap=1, reload="true").start()
        old = run.catalog()["current"]
        self.posted(run, 4)
        wait_for("all are admitted", lambda: len(run.versions(old)) == 5)
        before = {version: run.memento(old, version) for version in run.versions(old)}
        run.ahead(3 * 86_400)
        wait_for("the old window is gone", lambda: [one["window"] for one in run.status()["windows"]] not in ([old], []) and run.ports_of(old) == [])
        port = run.ports[-1]
        words = [str(AGENCY / "keep.py"), "config.toml", "--past", TODAY.strftime("%Y%m%d"), "--port", str(port)]
        with subprocess.Popen(words, cwd=run.folder, stdout=subprocess.PIPE, stderr=subprocess.DEVNULL, text=True) as past:
            assert past.stdout is not None
            self.assertIn(f"window {old} with 4 versions", past.stdout.readline())
            for version, body in before.items():
                self.assertEqual(ask(port, f"/tiny/{old}/memento/connections?version={version}").body, body)
            past.terminate()
            self.assertEqual(past.wait(PATIENCE), 0)
        done = subprocess.run([*words[:3], "20200101", *words[4:]], cwd=run.folder, capture_output=True, text=True)
        self.assertEqual(done.returncode, 1)
        self.assertIn("no window of the archive", done.stderr)


LC = Path(os.environ.get("LC", TOP / "crates" / "lc" / "out" / "lc")).resolve()


@unittest.skipUnless(os.access(LC, os.X_OK), "the program is not here")
class Program(KeepTest):
    """With the program itself."""

    def test_every_memento_comes_back_from_the_program(self) -> None:
        run = self.running(program=LC).start()
        window = run.catalog()["current"]
        self.posted(run, 20)
        wait_for("all are admitted", run.served)
        before = {version: run.memento(window, version) for version in run.versions(window)}
        self.assertEqual(len(before), 21)
        self.assertGreater(len(set(before.values())), 10)
        run.kill()
        run.start()
        self.assertEqual(before, {version: run.memento(window, version) for version in run.versions(window)})

    def test_a_feed_that_check_refuses_is_mended(self) -> None:
        run = self.running(program=LC)
        with open(run.folder / "feed" / "stop_times.txt", "a") as file:
            file.write("T1,09:00:00,09:00:00,NOWHERE,9\n")
        run.start()
        self.assertTrue(run.log("mended"))
        self.assertEqual(run.status()["windows"][0]["versions"], 0)


if __name__ == "__main__":
    unittest.main()
