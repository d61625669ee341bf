#!/usr/bin/python3
"""Makes a city to look at: two feeds, a morning's messages, and what the pages leave out.

    city.py OUT [--base URL] [--date YYYYMMDD] [--every MINUTES] [--headways FACTOR]

OUT gets two folders, `city` (metro, trams and buses) and `region` (trains, some of whose stations are beside stations of
the city). Each has `feed/` (GTFS Schedule) and `messages/` (GTFS Realtime, in the order in which they are posted). OUT
also gets `public/`, the static documents that a proxy serves under URL: catalog.json, and for each publisher a
catalog.json of its own, names.json and timemap, in the forms in which agency/keep.py writes them. Equal arguments give
equal files.

The delays are drawn at random from a fixed seed: a vehicle gains and loses seconds from stop to stop. Tram 3 is held up
at about half past seven, and two trips of metro 1 are cancelled at about eight.
"""

import argparse
import csv
import json
import math
import random
import sys
from dataclasses import dataclass, field, replace
from datetime import date, datetime, timedelta, timezone
from pathlib import Path
from typing import Callable, Iterable
from zoneinfo import ZoneInfo

sys.path.insert(0, str(Path(__file__).resolve().parents[2] / "bench"))
from make_message import number, text  # type: ignore[import]  # noqa: E402  (the fields of Protocol Buffers)

ZONE = "Europe/Brussels"
CENTRE = (51.054, 3.722)  # The latitude and longitude of the centre.
METRES = 111_320  # of a degree of latitude
CHANGE = 120  # Seconds of a change, as `lc` takes them by default.
PACE = 1.1  # Metres a second on foot.
NEAR = 0.3  # Kilometres within which two points are one station.
WALK = 420  # Stations at most so many metres apart have a row in transfers.txt.
DAYS = 3  # How many service dates a feed has.
FIRST_MESSAGE, LAST_MESSAGE = 6 * 60, 10 * 60  # Minutes of the day.
FORESIGHT = 40 * 60  # Seconds before its start from which on messages have a trip.
SCHEDULED, CANCELED = 0, 3  # ScheduleRelationship of a trip
FULL, DIFFERENTIAL = 0, 1  # Incrementality of a message

NAMES = """
Central Station|Market Square|Cathedral|Opéra|Harbour|Botanic Garden|University|Old Mill|Grammar School|Town Hall
Saint-Rémi|Coupure|Korenlei|Vrijdagmarkt|Zuidplein|Brouwerij|Sluizeken|Dampoort|Sint-Jacobs|Rabot
Château d’Eau|Place Liberté|Abbaye|Béguinage|Écluse|Forêt|Jardin d’Été|La Chênaie|Les Prés|Moulin
Nordbrücke|Südtor|Mühlenweg|Schäferhof|Kröger Allee|Lindenplatz|Ostring|Westend|Zoologischer Garten|Müllerstraße
Airport|Stadium|Hospital|Exhibition Centre|Science Park|Library|Museum|Fire Station|Cemetery|Waterworks
Ringway North|Ringway East|Ringway South|Ringway West|Canal Bridge|Ferry Landing|Lighthouse|Shipyard|Fish Market|Custom House
Poplar Lane|Chestnut Avenue|Maple Drive|Orchard|Vineyard|Brickworks|Gasworks|Tannery|Foundry|Quarry
Groenestaakstraat|Bevrijdingslaan|Palinghuizen|Wondelgem|Mariakerke|Drongen|Ekkergem|Muide|Meulestede|Gentbrugge
São Bento|Señora del Mar|Ångström|Øresund|Łódź Street|Dvořák Park|Győr Square|Åkerlund|Niño Jesús|Čapek Street
Tivoli|Clock Tower|Rope Walk|Granary|Weir|Silver Street|Bell Lane|Park Row|Toll House|Viaduct
Heath|Meadow End|Hilltop|Valley Road|Riverside|Watergate|Kingsgate|Priory|Almshouses|Observatory
""".strip().replace("\n", "|").split("|")
TOWNS = """
Aldermere|Bruyère|Castelline|Deurne|Eikenhof|Fougères|Grünau|Halewijn|IJzerberg|Jettenrode|Kluisbos|Lanaye|Mechtem|Nivellet|Oosterzele|Pévy
""".strip().split("|")


@dataclass(frozen=True)
class Line:
    """A line in both directions. Its course is in kilometres east and north of the centre."""

    id: str
    name: str  # Where it is empty, the two ends.
    kind: int  # route_type of GTFS
    colour: str
    text: str
    course: list[tuple[float, float]]
    spacing: float  # Kilometres between stops; 0 where each point of the course is one.
    speed: float  # Kilometres an hour.
    headway: int  # Minutes.


def circle(radius: float) -> list[tuple[float, float]]:
    """A ring of a radius, its end beside its begin."""
    return [(radius * math.sin(a), 0.85 * radius * math.cos(a)) for a in (math.radians(d) for d in range(0, 360, 15))]


CITY = [
    Line("M1", "", 1, "C8102E", "FFFFFF", [(-6.4, 1.6), (-3, 0.6), (0, 0), (3.2, -0.3), (6.8, 0.9), (8.6, 2.2)], 0.95, 36, 6),
    Line("M2", "", 1, "0057A8", "FFFFFF", [(0.7, 6.2), (0.9, 3), (0, 0), (-0.9, -2.8), (-0.4, -5.8)], 0.9, 35, 6),
    Line("3", "", 0, "007A33", "FFFFFF", [(-4.9, 4.6), (-2, 1.9), (0, 0), (2.3, -1.8), (5, -4.4)], 0.85, 21, 8),
    Line("4", "", 0, "FFB81C", "000000", [(4.6, 4.6), (1.9, 1.7), (0, 0), (-2.2, -1.5), (-5.4, -3.3)], 0.85, 20, 8),
    Line("5", "Ring", 0, "7B2D8E", "FFFFFF", circle(2.6), 0.8, 20, 10),
    Line("12", "", 3, "5B6770", "FFFFFF", [(-6, 3.1), (-2.6, 3), (0.9, 3.2), (4, 2.6), (6.6, 1)], 0.95, 18, 15),
    Line("18", "", 3, "00788A", "FFFFFF", [(-5.2, -1.1), (-2, -2.7), (0.4, -3.4), (3, -2.6), (6, -1.4)], 0.95, 18, 15),
]
REGION = [
    Line("S1", "", 2, "1D4F91", "FFFFFF",
         [(-24, 9), (-17, 6), (-11, 3.4), (-6.3, 1.65), (0.06, 0.05), (6.75, 0.95), (12, 3), (18, 2), (26, 4)], 0, 70, 30),
    Line("S2", "", 2, "B5500A", "FFFFFF",
         [(4, 24), (3, 17), (1.6, 10.5), (0.75, 6.15), (0.06, 0.05), (-0.35, -5.75), (-3, -11), (-6, -17), (-5, -24)], 0, 68, 30),
]


@dataclass
class Station:
    id: str
    name: str
    at: tuple[float, float]
    platforms: dict[str, str] = field(default_factory=dict)  # line and direction: stop_id


@dataclass(frozen=True)
class Trip:
    id: str
    line: Line
    headsign: str
    stops: list[str]
    arrivals: list[int]  # Seconds of the service day.
    departures: list[int]


@dataclass
class Network:
    """What a publisher has."""

    folder: str
    agency: str
    lines: list[Line]
    stations: list[Station]
    trips: list[Trip]


def distance(one: tuple[float, float], other: tuple[float, float]) -> float:
    return math.hypot(one[0] - other[0], one[1] - other[1])


def along(course: list[tuple[float, float]], spacing: float) -> list[tuple[float, float]]:
    """Points of a course, so far apart along it. With a spacing of 0 they are the points that it is made of."""
    if spacing == 0:
        return course
    length = sum(map(distance, course, course[1:]))
    count = max(1, round(length / spacing))
    points = [course[0]]
    for part in range(1, count):
        left = length * part / count
        for one, other in zip(course, course[1:]):
            piece = distance(one, other)
            if left <= piece:
                share = left / piece
                points.append((one[0] + share * (other[0] - one[0]), one[1] + share * (other[1] - one[1])))
                break
            left -= piece
    return points + [course[-1]]


def stations_of(lines: list[Line], names: list[str], prefix: str, known: list[Station]) -> tuple[list[Station], dict[str, list[Station]]]:
    """The stations, and those of each line in their order. A point near a station of an earlier line is that station.

    A station beside one of `known`, those of another publisher, has its name.
    """
    chance = random.Random(7)
    stations: list[Station] = []
    served: dict[str, list[Station]] = {}
    for line in lines:
        course: list[Station] = []
        for point in along(line.course, line.spacing):
            near = min(stations, key=lambda station: distance(station.at, point), default=None)
            if near is None or distance(near.at, point) > NEAR:
                wiggle = (point[0] + chance.uniform(-0.06, 0.06), point[1] + chance.uniform(-0.06, 0.06))
                place = point if line.spacing == 0 or point == (0, 0) else wiggle
                near = Station(f"{prefix}{len(stations) + 1:03}", "", place)
                stations.append(near)
            if near not in course:
                course.append(near)
        served[line.id] = course
    left = iter(names)
    for station in sorted(stations, key=lambda station: distance(station.at, (0, 0))):
        other = min(known, key=lambda one: distance(one.at, station.at), default=None)
        station.name = other.name if other and distance(other.at, station.at) < NEAR else next(left)
    return stations, served


def platform_letter(line: Line, place: int) -> str:
    return chr(ord("A") + place) if line.kind == 3 else str(place + 1)


def trips_of(line: Line, stations: list[Station], headways: float) -> Iterable[Trip]:
    """The trips of a line on a day, from 05:20 to 24:20, in both directions."""
    for direction, course in enumerate([stations, stations[::-1]]):
        stops = []
        for station in course:
            key = f"{line.id} {direction}"
            if key not in station.platforms:
                station.platforms[key] = f"{station.id}-{platform_letter(line, len(station.platforms))}"
            stops.append(station.platforms[key])
        rides = [round(distance(one.at, other.at) / line.speed * 3600 / 10) * 10 + 20 for one, other in zip(course, course[1:])]
        step = max(1, round(line.headway * headways)) * 60
        begin = 5 * 3600 + 20 * 60 + direction * step // 2 // 60 * 60
        for place, start in enumerate(range(begin, 24 * 3600 + 20 * 60, step)):
            arrivals: list[int] = []
            departures: list[int] = []
            clock = start
            for ride in rides + [0]:
                arrivals.append(clock)
                departures.append(clock + (20 if departures and ride else 0))
                clock = departures[-1] + ride
            yield Trip(f"{line.id}-{direction}-{place + 1:03}", line, course[-1].name, stops, arrivals, departures)


def network(folder: str, agency: str, lines: list[Line], names: list[str], known: list[Station], headways: float) -> Network:
    stations, served = stations_of(lines, names, folder[0], known)
    lines = [replace(line, name=line.name or f"{served[line.id][0].name} – {served[line.id][-1].name}") for line in lines]
    trips = [trip for line in lines for trip in trips_of(line, served[line.id], headways)]
    return Network(folder, agency, lines, stations, trips)


def degrees(at: tuple[float, float]) -> tuple[float, float]:
    """Latitude and longitude of a place."""
    lat = CENTRE[0] + at[1] * 1000 / METRES
    lon = CENTRE[1] + at[0] * 1000 / METRES / math.cos(math.radians(CENTRE[0]))
    return round(lat, 5), round(lon, 5)


def beside(at: tuple[float, float], place: int) -> tuple[float, float]:
    """Where a platform of a station is."""
    return at[0] + 0.025 * math.cos(place * 2.4), at[1] + 0.025 * math.sin(place * 2.4)


def clock(seconds: int) -> str:
    return f"{seconds // 3600:02}:{seconds // 60 % 60:02}:{seconds % 60:02}"


def write_table(file: Path, header: str, rows: Iterable[Iterable[object]]) -> None:
    with file.open("w", encoding="utf-8", newline="") as out:
        writer = csv.writer(out, lineterminator="\n")
        writer.writerow(header.split(","))
        writer.writerows(rows)


def write_feed(folder: Path, net: Network, first: date) -> None:
    """The feed as GTFS Schedule."""
    folder.mkdir(parents=True, exist_ok=True)
    stops: list[list[object]] = []
    for station in net.stations:
        stops.append([station.id, station.name, *degrees(station.at), 1, "", ""])
        for place, stop in enumerate(station.platforms.values()):
            stops.append([stop, station.name, *degrees(beside(station.at, place)), 0, station.id, stop.rpartition("-")[2]])
    write_table(folder / "stops.txt", "stop_id,stop_name,stop_lat,stop_lon,location_type,parent_station,platform_code", stops)
    write_table(folder / "agency.txt", "agency_id,agency_name,agency_url,agency_timezone", [["a", net.agency, "http://example.org/", ZONE]])
    write_table(folder / "routes.txt", "route_id,agency_id,route_short_name,route_long_name,route_type,route_color,route_text_color",
                [[line.id, "a", line.id, line.name, line.kind, line.colour, line.text] for line in net.lines])
    write_table(folder / "trips.txt", "route_id,service_id,trip_id,trip_headsign",
                [[trip.line.id, "daily", trip.id, trip.headsign] for trip in net.trips])
    write_table(folder / "stop_times.txt", "trip_id,arrival_time,departure_time,stop_id,stop_sequence",
                ([trip.id, clock(arrival), clock(departure), stop, place] for trip in net.trips
                 for place, (stop, arrival, departure) in enumerate(zip(trip.stops, trip.arrivals, trip.departures), start=1)))
    write_table(folder / "calendar_dates.txt", "service_id,date,exception_type",
                [["daily", f"{first + timedelta(days=day):%Y%m%d}", 1] for day in range(DAYS)])
    write_table(folder / "transfers.txt", "from_stop_id,to_stop_id,transfer_type,min_transfer_time",
                [[one.id, other.id, 2, round(distance(one.at, other.at) * 1000 / PACE)] for one in net.stations for other in net.stations
                 if one is not other and distance(one.at, other.at) * 1000 <= WALK])


@dataclass(frozen=True)
class Delays:
    """What really happens to a trip: the delay of each departure, and when the trip is cancelled, if it is."""

    of_calls: list[int]
    cancelled: int | None  # Seconds of the day.


def delays_of(trip: Trip, chance: random.Random) -> Delays:
    slack = {0: 40, 1: 15, 2: 60, 3: 55}[trip.line.kind]
    delay = 0.0
    calls: list[int] = []
    for departure in trip.departures:
        rush = 1 + 1.2 * math.exp(-((departure - 8 * 3600) / 3000) ** 2)
        delay = max(-20.0, delay * 0.93 + chance.gauss(slack * 0.32 * rush, slack * 0.8))
        if trip.line.id == "3" and 7.45 * 3600 <= departure <= 8.35 * 3600 and len(calls) * 2 >= len(trip.stops):
            delay += 75  # The tram is held up on the way out of the centre.
        calls.append(round(delay / 10) * 10)
    is_cancelled = trip.line.id == "M1" and 8 * 3600 <= trip.departures[0] < 8 * 3600 + 720 and trip.id.startswith("M1-0")
    return Delays(calls, 7 * 3600 + 50 * 60 if is_cancelled else None)


def trip_update(trip: Trip, delays: Delays, day: date, now: int) -> bytes:
    """What is known of a trip: delays of past calls as they were, and the last one for those that come."""
    is_cancelled = delays.cancelled is not None and delays.cancelled <= now
    descriptor = text(1, trip.id.encode()) + text(3, f"{day:%Y%m%d}".encode())
    if is_cancelled:
        return bytes(text(1, descriptor + number(4, CANCELED)))
    calls, last = b"", None
    for place, (departure, delay) in enumerate(zip(trip.departures, delays.of_calls), start=1):
        if place > 1 and departure + delay > now:
            break
        if delay != last:
            calls += text(2, number(1, place) + text(2, number(1, delay)) + text(3, number(1, delay)))
        last = delay
    return bytes(text(1, descriptor + number(4, SCHEDULED)) + calls)


def message(net: Network, delays: dict[str, Delays], day: date, minutes: int, every: int) -> bytes:
    """What a publisher says at a minute of the day. The first message is a full one, and later ones say what may have changed."""
    now = minutes * 60
    is_first = minutes == FIRST_MESSAGE
    moment = datetime(day.year, day.month, day.day, tzinfo=ZoneInfo(ZONE)) + timedelta(minutes=minutes)
    header = text(1, b"2.0") + number(2, FULL if is_first else DIFFERENTIAL) + number(3, int(moment.timestamp()))
    parts = [text(1, header)]
    for trip in net.trips:
        is_over = trip.arrivals[-1] + delays[trip.id].of_calls[-1] < now - every * 60
        if trip.departures[0] - FORESIGHT <= now and (is_first or not is_over):
            parts.append(text(2, text(1, trip.id.encode()) + text(3, trip_update(trip, delays[trip.id], day, now))))
    return b"".join(parts)


def names_of(net: Network) -> dict[str, object]:
    """What pages and the stops document leave out."""
    stops: dict[str, object] = {}
    for station in net.stations:
        lat, lon = degrees(station.at)
        stops[station.id] = {"lat": lat, "lon": lon}
        for place, stop in enumerate(station.platforms.values()):
            lat, lon = degrees(beside(station.at, place))
            stops[stop] = {"lat": lat, "lon": lon, "platform": stop.rpartition("-")[2]}
    routes = {line.id: {"short": line.id, "long": line.name, "type": line.kind, "color": line.colour, "textColor": line.text, "agency": net.agency}
              for line in net.lines}
    trips = {trip.id: {"route": trip.line.id, "headsign": trip.headsign} for trip in net.trips}
    return {"zone": ZONE, "stops": stops, "routes": routes, "trips": trips}


def http_date(moment: datetime) -> str:
    return moment.astimezone(timezone.utc).strftime("%a, %d %b %Y %H:%M:%S GMT")


def iso(moment: datetime) -> str:
    return moment.astimezone(timezone.utc).strftime("%Y-%m-%dT%H:%M:%S.000Z")


def timemap_of(base: str, versions: list[datetime]) -> str:
    """The versions in the form of RFC 7089, section 5."""
    links = [f'<{base}connections>;rel="original timegate"',
             f'<{base}timemap>;rel="self";type="application/link-format";from="{http_date(versions[0])}";until="{http_date(versions[-1])}"']
    links += [f'<{base}memento/connections?version={iso(version)}>;rel="memento";datetime="{http_date(version)}"' for version in versions]
    return ",\n".join(links) + "\n"


def catalog_of(net: Network, day: date, where: str, versions: list[datetime]) -> dict[str, object]:
    """What windows a publisher has: one."""
    window = {"window": f"{day:%Y%m%d}", "base": where, "first": f"{day:%Y%m%d}", "days": DAYS, "last": f"{day + timedelta(days=DAYS - 1):%Y%m%d}",
              "zone": ZONE, "change": CHANGE, "cuts": "span:1800", "baseMoment": iso(versions[0]), "lastVersion": iso(versions[-1]),
              "versions": len(versions), "takesMessages": True}
    return {"name": net.folder, "parts": [], "current": window["window"], "windows": [window]}


def write_json(file: Path, value: object) -> None:
    file.parent.mkdir(parents=True, exist_ok=True)
    file.write_text(json.dumps(value, ensure_ascii=False, separators=(",", ":")), encoding="utf-8")


def write_publisher(out: Path, net: Network, day: date, base: str, every: int) -> None:
    """All files of a publisher."""
    write_feed(out / net.folder / "feed", net, day)
    chance = random.Random(11)
    delays = {trip.id: delays_of(trip, chance) for trip in net.trips}
    messages = out / net.folder / "messages"
    messages.mkdir(exist_ok=True)
    midnight = datetime(day.year, day.month, day.day, tzinfo=ZoneInfo(ZONE))
    versions = [midnight - timedelta(hours=6)]
    for minutes in range(FIRST_MESSAGE, LAST_MESSAGE + 1, every):
        (messages / f"{minutes // 60:02}{minutes % 60:02}.pb").write_bytes(message(net, delays, day, minutes, every))
        versions.append(midnight + timedelta(minutes=minutes))
    where = f"{base}{net.folder}/{day:%Y%m%d}/"
    public = out / "public" / net.folder
    write_json(public / "catalog.json", catalog_of(net, day, where, versions))
    write_json(public / f"{day:%Y%m%d}" / "names.json", names_of(net))
    (public / f"{day:%Y%m%d}" / "timemap").write_text(timemap_of(where, versions), encoding="utf-8")


def main(words: list[str]) -> None:
    reader = argparse.ArgumentParser(description="Makes two feeds, a morning's messages, and what the pages leave out.")
    reader.add_argument("out", type=Path, help="the folder to write")
    reader.add_argument("--base", default="http://localhost:8000/", help="the URL under which both publishers are, with a slash at the end")
    day: Callable[[str], date] = lambda word: datetime.strptime(word, "%Y%m%d").date()
    reader.add_argument("--date", type=day, default=date(2024, 5, 1), help="the first service date, as 20240501")
    reader.add_argument("--every", type=int, default=10, help="minutes between two messages")
    reader.add_argument("--headways", type=float, default=1.0, help="2 halves the trips")
    given = reader.parse_args(words)
    city = network("city", "City transport", CITY, NAMES, [], given.headways)
    region = network("region", "Regional trains", REGION, TOWNS, city.stations, given.headways)
    for net in (city, region):
        write_publisher(given.out, net, given.date, given.base, given.every)
    write_json(given.out / "public" / "catalog.json", {"parts": [f"{net.folder}/catalog.json" for net in (city, region)], "windows": []})


if __name__ == "__main__":
    main(sys.argv[1:])
