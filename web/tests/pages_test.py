#!/usr/bin/python3
"""Tests of the pages in a browser, with two publishers of the program behind one host.

    pages_test.py [--pictures DIR]

It prints a line for each check, and at last `N passed, M failed, K skipped`. With --pictures it also takes the screenshots of docs/APPS.md.
LC is the program, crates/lc/out/lc of this repository if it is not set.
"""

import argparse
import csv
import json
import os
import random
import re
import shutil
import subprocess
import sys
import tempfile
import time
import urllib.request
from collections.abc import Callable, Iterator
from contextlib import contextmanager
from pathlib import Path

HERE = Path(__file__).resolve().parent
TOP = HERE.parents[1]
LC = Path(os.environ.get("LC", TOP / "crates/lc/out/lc"))
ZONE = "/usr/share/zoneinfo/Europe/Brussels"
PATIENCE = 40.0  # Seconds within which a condition has to come true on a busy machine.
RULES = (HERE / "pages_rules.js").read_text(encoding="utf-8") + "return faults;"
DAY = "2024-05-01"
BEFORE_MESSAGES = "2024-04-30T16:00:00Z"

count = {"ok": 0, "FAILED": 0, "skipped": 0}


def say(result: str, name: str) -> None:
    count[result] += 1
    print(f"{result}: {name}", flush=True)


def finish() -> None:
    print(f"{count['ok']} passed, {count['FAILED']} failed, {count['skipped']} skipped")
    sys.exit(1 if count["FAILED"] else 0)


def skip_all(why: str) -> None:
    say("skipped", f"pages, since {why}")
    finish()


try:
    from selenium import webdriver
    from selenium.common.exceptions import WebDriverException
    from selenium.webdriver.chrome.service import Service
    from selenium.webdriver.common.by import By
    from selenium.webdriver.common.keys import Keys
    from selenium.webdriver.remote.webelement import WebElement
except ImportError:
    skip_all("python3-selenium is not here")

sys.path.insert(0, str(HERE))
sys.path.insert(0, str(TOP / "web/demo"))
import city  # noqa: E402
from pages_site import Site  # noqa: E402


def same(name: str, wanted: object, found: object) -> None:
    if wanted == found:
        say("ok", name)
    else:
        say("FAILED", f"{name}: wanted {wanted!r}, found {found!r}")


def until(what: Callable[[], object], seconds: float = PATIENCE) -> object:
    """What is true at last, or the last thing that was not. A page that is just loading has none of it."""
    end = time.monotonic() + seconds
    while True:
        try:
            found = what()
        except WebDriverException:
            found = None
        if found or time.monotonic() > end:
            return found
        time.sleep(0.05)


class Publisher:
    """The program, which serves a feed of city.py with its messages."""

    def __init__(self, work: Path, name: str, base: str) -> None:
        self.port = 0
        for _ in range(5):  # Another program may take a port that was free.
            self.port = free_port()
            words = [str(LC), "serve", str(work / name / "feed"), "20240501", "--days", str(city.DAYS), "--zone", f"file:{ZONE}", "--port", str(self.port),
                     "--connections", "1000000", "--base", f"{base}{name}/20240501/", "--base-moment", BEFORE_MESSAGES, "--accept-updates"]
            self.process = subprocess.Popen(words, stdout=subprocess.PIPE, stderr=subprocess.DEVNULL, text=True)
            assert self.process.stdout
            if self.process.stdout.readline().startswith("listening"):
                break
            self.process.wait()
        else:
            raise RuntimeError(f"{LC} does not serve {name}")
        for message in sorted((work / name / "messages").iterdir()):
            post = urllib.request.Request(f"http://127.0.0.1:{self.port}/{name}/20240501/updates", message.read_bytes(), {"Connection": "close"})
            with urllib.request.urlopen(post, timeout=30):
                pass

    def end(self) -> None:
        self.process.kill()
        self.process.wait()


def free_port() -> int:
    import socket

    with socket.socket() as one:
        one.bind(("127.0.0.1", 0))
        port: int = one.getsockname()[1]
        return port


class Browser:
    """A page in chromium, and what a test does there."""

    def __init__(self, profile: Path, site: str) -> None:
        options = webdriver.ChromeOptions()
        for word in ["--headless=new", "--no-sandbox", "--disable-gpu", "--hide-scrollbars", "--lang=en-GB", f"--user-data-dir={profile}", "--disable-dev-shm-usage"]:
            options.add_argument(word)  # type: ignore[no-untyped-call]
        options.set_capability("goog:loggingPrefs", {"performance": "ALL", "browser": "ALL"})
        self.driver = webdriver.Chrome(options=options, service=Service(str(shutil.which("chromedriver"))))
        self.site = site
        self.size(1280, 900)

    def size(self, width: int, height: int) -> None:
        self.driver.execute_cdp_cmd("Emulation.setDeviceMetricsOverride", {"width": width, "height": height, "deviceScaleFactor": 1, "mobile": width < 500})

    def scheme(self, name: str) -> None:
        self.driver.execute_cdp_cmd("Emulation.setEmulatedMedia", {"features": [{"name": "prefers-color-scheme", "value": name}]})

    def open(self, address: str) -> None:
        self.driver.get(self.site + address)

    def one(self, selector: str) -> WebElement:
        return self.driver.find_element(By.CSS_SELECTOR, selector)

    def all(self, selector: str) -> list[WebElement]:
        return self.driver.find_elements(By.CSS_SELECTOR, selector)

    def text(self, selector: str) -> str:
        return str(self.one(selector).text)

    def run(self, script: str, *words: object) -> object:
        return self.driver.execute_script(script, *words)  # type: ignore[no-untyped-call]

    def log(self, kind: str) -> list[dict[str, str]]:
        return list(self.driver.get_log(kind))  # type: ignore[no-untyped-call]

    def press(self, *keys: str) -> None:
        """Sends keys to whatever has the focus."""
        for key in keys:
            self.driver.switch_to.active_element.send_keys(key)

    def focused(self) -> str:
        return str(self.run("return document.activeElement.id || document.activeElement.className"))

    def journeys(self, least: int = 1) -> list[str]:
        """The times of the journeys in the list, once the page is at rest."""
        until(lambda: len(self.all(".journey")) >= least and self.run("return document.getElementById('list').getAttribute('aria-busy')") == "false")
        return [str(times) for times in self.run("return [...document.querySelectorAll('.journey .times')].map((one) => one.innerText)")]  # type: ignore[attr-defined]

    def fault(self) -> str:
        return str(until(lambda: self.text("#fault")))


def address(**members: str) -> str:
    return "?" + "&".join(f"{name}={value}" for name, value in members.items())


class Tests:
    def __init__(self, work: Path, page: Browser, net: city.Network, pictures: Path | None) -> None:
        self.work = work
        self.page = page
        self.net = net
        self.pictures = pictures
        self.ids = {station.name: station.id for station in net.stations}

    def picture(self, name: str) -> None:
        """Takes a screenshot for the documents, if they are wanted."""
        if self.pictures:
            self.pictures.mkdir(parents=True, exist_ok=True)
            until(lambda: self.page.run("return document.fonts.status") == "loaded")
            file = str(self.pictures / f"{name}.png")
            self.page.driver.save_screenshot(file)
            if shutil.which("pngquant"):
                subprocess.run(["pngquant", "--force", "--strip", "--ext", ".png", "64", file], check=True)

    def question(self, **more: str) -> str:
        return address(**{"from": self.ids["Toll House"], "to": self.ids["Lighthouse"], "at": f"{DAY}T08:10", **more})

    # What one types and chooses

    def typing(self) -> None:
        page = self.page
        page.open("")
        until(lambda: page.run("return document.getElementById('past').hidden") is False)
        page.one("#from").send_keys("eau chat")
        until(lambda: page.all("#from-list [role=option]"))
        same("typing: accents and the order of words do not count", ["Château d’Eau"], [one.text for one in page.all("#from-list [role=option]")])
        page.one("#from").send_keys(Keys.ARROW_DOWN, Keys.ENTER)
        same("typing: the stop is taken", "Château d’Eau", page.one("#from").get_property("value"))
        same("typing: the focus goes on", "to", page.focused())
        page.one("#to").send_keys("zzz")
        page.one("#question .main").click()
        same("typing: an unknown name says what to do", True, "No stop is called “zzz”" in str(until(lambda: page.text("#to-fault"))))
        page.one("#to").send_keys(Keys.CONTROL + "a")
        page.one("#to").send_keys("hilltop")
        until(lambda: page.all("#to-list [role=option]"))
        page.all("#to-list [role=option]")[0].click()
        page.one("#question .main").click()
        same("choosing: there are four journeys", 4, len(page.journeys(4)))
        opened = page.run("return document.querySelector('.journey.open .times').innerText")
        page.all(".journey .summary")[1].click()
        same("choosing: another journey opens", True, page.run("return document.querySelectorAll('.journey.open').length") == 1 and opened != page.text(".journey.open .times"))
        page.one("#later").click()
        same("choosing: later journeys", 7, len(page.journeys(7)))
        page.one("#earlier").click()
        times = page.journeys(10)
        same("choosing: earlier journeys, in their order", True, len(times) == 10 and times == sorted(times))

    def modes(self) -> None:
        page = self.page
        page.open(self.question(mode="arrive", at=f"{DAY}T09:00"))
        arrivals = [times.split("→")[1].split()[0] for times in page.journeys(4)]
        same("arrive by: none is later", True, bool(arrivals) and max(arrivals) <= "09:00")
        page.open(self.question(mode="fewest"))
        same("fewest changes: there are journeys", True, len(page.journeys(4)) == 4)

    def timetable(self) -> None:
        """Before any message the rides of a journey are rows of stop_times.txt."""
        page = self.page
        page.open(self.question(known=BEFORE_MESSAGES))
        page.journeys(4)
        same("the past: before any message there is no delay", [], page.all(".delay"))
        with (self.work / "city/feed/stop_times.txt").open(encoding="utf-8") as file:
            rows = {(row["trip_id"].split("-")[0], self.name_of(row["stop_id"]), row["departure_time"][:5]) for row in csv.DictReader(file)}
        rides = page.run("""return [...document.querySelectorAll('.journey.open .ride')].map((ride) => [ride.querySelector('.badge').lastChild.textContent,
            ride.querySelector('.call-stop strong').textContent, ride.querySelector('.call time').textContent]);""")
        assert isinstance(rides, list)
        same("the past: each ride is one of the timetable", [], [ride for ride in rides if tuple(ride) not in rows] or ([] if rides else ["no ride"]))

    def name_of(self, stop: str) -> str:
        return {station.id: station.name for station in self.net.stations}[stop.partition("-")[0]]

    def sliding(self) -> None:
        page = self.page
        page.open(self.question())
        newest = page.journeys(4)
        same("sliding: the newest version has delays", True, len(page.all(".journey .delay")) > 0)
        page.one("#version").send_keys(Keys.HOME)
        until(lambda: not page.all(".delay"))
        past = page.journeys(4)
        same("sliding: the past is another timetable", True, past != newest and not page.all(".delay"))
        same("sliding: the address says so", True, f"known={BEFORE_MESSAGES}" in page.driver.current_url)
        same("sliding: it is said", True, "as known at Tuesday 30 April 2024" in plain(page.text("#status")))
        shared = page.driver.current_url
        page.driver.switch_to.new_window("tab")
        page.driver.get(shared)
        same("sharing: the address gives the same journeys", past, page.journeys(4))
        page.driver.close()
        page.driver.switch_to.window(page.driver.window_handles[0])
        page.one("#newest").click()
        until(lambda: page.all(".delay"))
        same("sliding: back to the newest version", newest, page.journeys(4))

    def keyboard(self) -> None:
        page = self.page
        page.open("")
        until(lambda: page.run("return document.getElementById('past').hidden") is False)
        for _ in range(9):
            page.press(Keys.TAB)
            if page.focused() == "from":
                break
        page.press("toll")
        until(lambda: page.all("#from-list [role=option]"))
        page.press(Keys.ARROW_DOWN, Keys.ENTER, "lightho")
        until(lambda: page.all("#to-list [role=option]"))
        page.press(Keys.ARROW_DOWN, Keys.ENTER, Keys.ENTER)
        same("keyboard: a question without a pointer", True, len(page.journeys(4)) == 4)
        for _ in range(14):
            page.press(Keys.TAB)
            if page.focused() == "summary":
                break
        before = page.one(".journey .summary").get_attribute("aria-expanded")
        page.press(Keys.ENTER)
        same("keyboard: a journey closes", ("true", "false"), (before, page.one(".journey .summary").get_attribute("aria-expanded")))

    def looks(self) -> None:
        page = self.page
        delays = address(line="city/3", day=DAY, begin="07:00", end="09:00")
        for scheme in ["light", "dark"]:
            page.scheme(scheme)
            for name, where, width, height in [("journeys", self.question(), 1280, 900), ("journeys-360", self.question(lang="nl"), 360, 740),
                                               ("delays", f"delays.html{delays}", 1280, 1000), ("delays-360", f"delays.html{delays}&lang=nl", 360, 740)]:
                page.size(width, height)
                page.open(where)
                if name.startswith("delays"):
                    until(lambda: page.all("#picture svg") and len(page.all("#run option")) > 8)
                    page.run("const run = document.getElementById('run'); run.selectedIndex = 8; run.dispatchEvent(new Event('change'))")
                else:
                    page.journeys(4)
                same(f"{name}, {scheme}: names, headings, contrast", [], page.run(RULES))
                same(f"{name}, {scheme}: nothing is wider than the page", True, page.run("return document.documentElement.scrollWidth") == width)
                if name.endswith("360"):
                    page.run("document.getElementById('results').scrollIntoView()")
                if (scheme == "light") != (name == "journeys-360"):
                    self.picture(name if scheme == "light" else f"{name}-dark")
        page.scheme("light")
        page.size(1280, 900)
        same("language: Dutch", ("nl", "Vertragingen"), (page.run("return document.documentElement.lang"), page.run("return document.querySelector('h1').textContent")))

    def delays(self) -> None:
        """The delays of a run are those that city.py drew for it."""
        page = self.page
        page.open(f"delays.html{address(line='city/3', day=DAY, begin='07:00', end='09:00')}")
        until(lambda: page.all("#picture svg"))
        trip = next(trip for trip in self.net.trips if trip.line.id == "3" and trip.departures[0] >= 7 * 3600 + 1200)
        page.run("const run = document.getElementById('run'); run.value = arguments[0]; run.dispatchEvent(new Event('change'))", f"{trip.id}/20240501/-")
        found = until(lambda: page.run("return [...document.querySelectorAll('#run-table tbody tr')].map((row) => [...row.children].map((cell) => cell.textContent))"))
        assert isinstance(found, list)
        drawn = self.drawn(trip)
        wanted = [[self.name_of(stop), signed(delay)] for stop, delay in zip(trip.stops, drawn)]
        same("delays: those of a run", wanted, [[row[0], row[3]] for row in found])
        newest = page.run("return document.querySelector('#picture .much').getAttribute('d')")
        page.one("#version").send_keys(Keys.HOME)
        until(lambda: page.run("return document.querySelector('#picture .much').getAttribute('d')") == "")
        same("delays: an earlier frame is another one", True, newest != "" and page.run("return document.querySelector('#picture .much').getAttribute('d')") == "")
        page.one("#play").click()
        until(lambda: "06:50" not in page.text("#version-text"))
        page.one("#play").click()
        same("delays: it plays, and stops", "Play", page.text("#play"))
        page.one("#picture").send_keys(Keys.ARROW_RIGHT)
        same("delays: arrow keys go from run to run", True, page.one("#run-table caption").text != "" and page.run("return document.getElementById('run').value") != f"{trip.id}/20240501/-")
        page.open(f"delays.html{address(line='city/M1', towards='Watergate', day=DAY, begin='07:30', end='09:00')}")
        until(lambda: page.all("#picture svg"))
        cancelled = sum(1 for one in self.net.trips if one.line.id == "M1" and one.id.startswith("M1-0") and 8 * 3600 <= one.departures[0] < 8 * 3600 + 720)
        same("delays: cancelled runs are counted", True, f"{cancelled} cancelled" in page.text("#status"))

    def drawn(self, trip: city.Trip) -> list[int]:
        """The delays of a trip, as a message has them once it is over: no call is earlier than the one before it."""
        chance = random.Random(11)
        all_delays = {one.id: city.delays_of(one, chance) for one in self.net.trips}
        return all_delays[trip.id].of_calls

    # What goes wrong

    def failures(self, slow: str) -> None:
        page = self.page
        wanted = {
            "down": "cannot be reached",
            "failing": "It answers with status 503",
            "lying": "something else than a timetable",
            "loops": "cannot be reached",
            "noversion": "This version of the timetable is not kept",
            "missing": "The timetable is not there",
            "nocatalog": "This page does not know any timetable",
        }
        for failure, text in wanted.items():
            page.open(f"f/{failure}/{self.question()}")
            found = page.fault()
            same(f"failure: {failure}", True, text in found or found)
        page.open(f"f/beyond/{self.question(at='2024-05-20T08:00')}")
        same("failure: no departure at that time", True, "no departures at this time" in page.fault())
        page.open(self.question(at="2024-06-20T08:00"))
        same("failure: a day outside the window", True, "the days from Wednesday 1 May 2024 to Friday 3 May 2024" in plain(page.fault()))
        page.open(address(**{"from": "nowhere", "to": self.ids["Lighthouse"], "at": f"{DAY}T08:00"}))
        same("failure: a stop that is not there", True, "It has no stop “nowhere”" in page.fault())
        page.open(f"f/slow/{self.question()}")
        until(lambda: page.one("#stop").is_displayed())
        page.one("#stop").click()
        same("failure: a search that is stopped", True, "Stopped." in page.fault())
        page.driver.switch_to.window(slow)
        same("failure: a publisher that is slow", True, "does not answer in time" in page.fault())
        page.driver.close()
        page.driver.switch_to.window(page.driver.window_handles[0])

    def full(self) -> None:
        page = self.page
        script = "Cache.prototype.put = () => Promise.reject(new DOMException('full', 'QuotaExceededError'))"
        added = page.driver.execute_cdp_cmd("Page.addScriptToEvaluateOnNewDocument", {"source": script})
        page.open(self.question(at=f"{DAY}T15:00"))
        same("failure: a full cache does not end the search", 4, len(page.journeys(4)))
        same("failure: a full cache is said", True, "no room" in page.text("#note"))
        page.driver.execute_cdp_cmd("Page.removeScriptToEvaluateOnNewDocument", added)

    def requests(self) -> None:
        """No request left the host of the page, and nothing was written to the console but failed loads."""
        messages = [json.loads(entry["message"])["message"] for entry in self.page.log("performance")]
        urls = [message["params"]["request"]["url"] for message in messages if message["method"] == "Network.requestWillBeSent"]
        own = [url for url in urls if url.startswith(self.page.site)]
        # What begins with chrome: is the browser's own first tab.
        same("requests: all are to the page's host", [], [url for url in urls if re.match("https?:|wss?:", url) and url not in own] or ([] if own else ["none"]))
        errors = [entry["message"] for entry in self.page.log("browser") if entry["level"] == "SEVERE" and "Failed to load resource" not in entry["message"]]
        same("console: no error", [], errors)


def plain(text: str) -> str:
    """A text without commas: versions of a browser differ in where a date has one."""
    return text.replace(",", "")


def signed(seconds: int) -> str:
    sign = "−" if seconds < 0 else "+" if seconds > 0 else ""
    return f"{sign}{abs(seconds) // 60}:{abs(seconds) % 60:02}"


def words_agree() -> None:
    """Both tables of words have the same keys, and the same kind of value under each."""
    script = """import { LANGUAGES } from './app/words.mjs';
    const shape = (table) => Object.entries(table).map(([key, value]) => `${key} ${typeof value} ${value !== null && typeof value === 'object' ? shape(value) : ''}`).sort().join();
    console.log(new Set(Object.values(LANGUAGES).map(shape)).size);"""
    if not shutil.which("node"):
        say("skipped", "words: both languages, since node is not here")
        return
    done = subprocess.run(["node", "--input-type=module", "-e", script], cwd=TOP / "web", capture_output=True, text=True, timeout=30)
    same("words: both languages say the same", "1", done.stdout.strip() or done.stderr)


def demo() -> None:
    if not shutil.which("nginx", path=f"{os.environ['PATH']}:/usr/sbin"):
        say("skipped", "demo.sh, since nginx is not here")
        return
    process = subprocess.Popen([str(TOP / "web/demo.sh"), "0"], stdout=subprocess.PIPE, stderr=subprocess.PIPE, text=True, env={**os.environ, "LC": str(LC)})
    assert process.stdout and process.stderr
    url = process.stdout.readline().strip()
    if not url:
        same("demo.sh: it begins", "", process.stderr.read())
        return
    with urllib.request.urlopen(f"{url}city/20240501/connections?departureTime=2024-05-01T06:00:00Z", timeout=30) as reply:
        same("demo.sh: pages behind nginx", (200, True), (reply.status, "version=2024-05-01T08:00:00.000Z" in reply.url))
    process.terminate()
    try:
        same("demo.sh: it ends", 0, process.wait(timeout=PATIENCE))
    except subprocess.TimeoutExpired:
        process.kill()
        say("FAILED", "demo.sh: it does not end")


@contextmanager
def running(work: Path) -> Iterator[tuple[Site, city.Network]]:
    """The site with both publishers. The city has half its trips, so that it is there soon."""
    site = Site([TOP / "web", work / "public"])
    publishers: list[Publisher] = []
    try:
        city.main([str(work), "--base", site.url, "--headways", "2"])
        for name in ["city", "region"]:
            publishers.append(Publisher(work, name, site.url))
            site.publishers[name] = publishers[-1].port
        yield site, city.network("city", "City transport", city.CITY, city.NAMES, [], 2)
    finally:
        site.close()
        for publisher in publishers:
            publisher.end()


def main() -> None:
    reader = argparse.ArgumentParser(description="Tests the pages in a browser.")
    reader.add_argument("--pictures", type=Path, help="a folder for screenshots")
    given = reader.parse_args()
    if not os.access(LC, os.X_OK):
        skip_all(f"there is no program at {LC}")
    if not shutil.which("chromedriver") or not shutil.which("chromium"):
        skip_all("chromium and chromium-driver are not here")
    words_agree()
    with tempfile.TemporaryDirectory(ignore_cleanup_errors=True) as folder, running(Path(folder)) as (site, net):
        page = Browser(Path(folder) / "profile", site.url)
        try:
            tests = Tests(Path(folder), page, net, given.pictures)
            first = page.driver.current_window_handle
            # This one waits until the page gives up, and is looked at last.
            page.driver.switch_to.new_window("tab")
            slow = page.driver.current_window_handle
            page.open(f"f/slow/{tests.question()}")
            page.driver.switch_to.window(first)
            for part in [tests.typing, tests.modes, tests.timetable, tests.sliding, tests.keyboard, tests.looks, tests.delays, lambda: tests.failures(slow), tests.full, tests.requests]:
                try:
                    part()
                except Exception as error:  # What a part does not find fails that part alone.
                    say("FAILED", f"{getattr(part, '__name__', 'failures')}: {type(error).__name__}: {str(error).partition(chr(10))[0]}")
        finally:
            page.driver.quit()
    demo()
    finish()


if __name__ == "__main__":
    main()
