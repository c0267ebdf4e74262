#!/usr/bin/env python3
"""Writes the sample data of the examples: one pass of a low satellite, all of it made up.

usage: examples/data/make.py [FOLDER]

A circular orbit over a turning earth gives the table, an orbit file in SP3-c. The same orbit, and not the table, gives the
frequencies that an observer would hear. The recording's clock is then put ahead, a frequency offset and noise are added,
and two pairs of samples change places. The random numbers are the same at every run.
"""

import datetime
import math
import os
import random
import sys

# What the fit should find.
CLOCK_OFFSET_MS = 2345  # the recorder's clock is ahead by this many milliseconds
FREQUENCY_OFFSET = 137.0  # Hz

# The orbit and the earth.
RADIUS = 6_921_000.0  # m, from the earth's centre: 550 km high
TILT = math.radians(53.0)  # of the orbit against the equator
GRAVITY = 3.986004418e14  # m3/s2
TURN = 7.2921159e-5  # of the earth, rad/s
LIGHT = 299_792_458.0  # m/s

# The orbit file: the satellite of the pass, and another, so that the choice of one matters.
SATELLITE, FOLLOWER = "L01", "L02"
FOLLOWS = 90  # s behind the satellite, on the same track over the earth
LEAP_SECONDS = 18  # s that the file's GPS time is ahead of UTC
NO_CLOCK = 999_999.999999  # in the clock's columns: none is given

# The table and the recording.
MIDDLE = 1_750_000_740  # s since 1970: the closest approach is some seconds from here
ROWS, ROW_GAP = 24, 60  # s
SAMPLES, SAMPLE_GAP_MS = 400, 400
NOISE = 0.5  # Hz, standard deviation
CENTRE = 401_650_000.0  # Hz

# The observer, on a round earth, and how far from the track.
LATITUDE, LONGITUDE = 51.98, 4.12  # degrees
EARTH = 6_371_000.0  # m
BESIDE = math.radians(6.2)  # as an angle at the earth's centre


def observer():
    """The observer's x, y, z, to the metre."""
    latitude, longitude = math.radians(LATITUDE), math.radians(LONGITUDE)
    level = EARTH * math.cos(latitude)
    place = level * math.cos(longitude), level * math.sin(longitude), EARTH * math.sin(latitude)
    return [float(round(component)) for component in place]


def position(seconds):
    """The satellite's x, y, z in the earth-fixed frame, so many seconds after MIDDLE."""
    rate = math.sqrt(GRAVITY / RADIUS**3)
    # At MIDDLE the satellite is over the observer's meridian, BESIDE further south.
    start = math.asin(math.sin(math.radians(LATITUDE) - BESIDE) / math.sin(TILT))
    along = start + rate * seconds
    east = math.atan2(math.sin(start) * math.cos(TILT), math.cos(start))
    node = math.radians(LONGITUDE) - east - TURN * seconds
    x, y = math.cos(along), math.sin(along) * math.cos(TILT)
    z = math.sin(along) * math.sin(TILT)
    turned = x * math.cos(node) - y * math.sin(node), x * math.sin(node) + y * math.cos(node), z
    return [RADIUS * component for component in turned]


def distance(seconds):
    """The satellite's distance from the observer, in metres."""
    return math.dist(position(seconds), observer())


def heard(seconds):
    """The frequency that reaches the observer, in hertz: the centre frequency less the rate of the distance."""
    rate = (distance(seconds + 0.01) - distance(seconds - 0.01)) / 0.02
    return CENTRE * (1.0 - rate / LIGHT)


def epoch(row):
    """The time of a row of the table, in GPS time."""
    seconds = MIDDLE + (row - ROWS // 2) * ROW_GAP + LEAP_SECONDS
    return datetime.datetime(1970, 1, 1) + datetime.timedelta(seconds=seconds)


def calendar(time):
    """A time in the columns 4 to 31 of a line."""
    return f"{time.year:4} {time.month:2} {time.day:2} {time.hour:2} {time.minute:2} {time.second:11.8f}"


def first_lines():
    """The lines 1 and 2: the first epoch as calendar, as week and second of GPS, and as modified Julian day."""
    first = epoch(0)
    days = (first - datetime.datetime(1980, 1, 6)).days  # since GPS time began, on the modified Julian day 44244
    second = first.hour * 3600 + first.minute * 60 + first.second
    return [
        f"#cP{calendar(first)} {ROWS:7} ORBIT WGS84 EXT NONE",
        f"## {days // 7:4} {days % 7 * 86400 + second:15.8f} {ROW_GAP:14.8f} {44244 + days:5} {second / 86400:15.13f}",
    ]


def header():
    """The 22 header lines, each of 60 columns. A zero stands where a satellite or an accuracy is not given."""
    none = "  0"
    comments = ["Synthetic: no such satellite flies.", "Written by examples/data/make.py.",
                f"{SATELLITE} is the satellite of recording.inc.", f"{FOLLOWER} follows it, {FOLLOWS} s behind."]
    lines = first_lines()
    lines += [f"+    2   {SATELLITE}{FOLLOWER}{15 * none}"] + 4 * [f"+        {17 * none}"]
    lines += 5 * [f"++       {17 * none}"]
    lines += [f"%c {kinds} ccc cccc cccc cccc cccc ccccc ccccc ccccc ccccc" for kinds in ("L  cc GPS", "cc cc ccc")]
    lines += 2 * [f"%f {0:10.7f} {0:12.9f} {0:14.11f} {0:18.15f}"]
    lines += 2 * [f"%i {0:4} {0:4} {0:4} {0:4} {0:6} {0:6} {0:6} {0:6} {0:9}"]
    return lines + [f"/* {comment:57}" for comment in comments]


def position_line(name, seconds):
    """A P line of 80 columns: whole metres, written as kilometres, and no clock. The P at its end says: predicted."""
    numbers = [round(component) / 1000 for component in position(seconds)] + [NO_CLOCK]
    return f"P{name}" + "".join(f"{number:14.6f}" for number in numbers) + "P".rjust(20)


def orbit_file():
    """The lines of the orbit file."""
    lines = header()
    for row in range(ROWS):
        seconds = (row - ROWS // 2) * ROW_GAP
        lines += [f"*  {calendar(epoch(row))}"]
        lines += [position_line(SATELLITE, seconds), position_line(FOLLOWER, seconds - FOLLOWS)]
    return lines + ["EOF"]


def closest():
    """The second of the closest approach, after MIDDLE."""
    return min(range(-300, 301), key=distance)


def recording():
    """Rows of an instant in nanoseconds by the recorder's clock, and a frequency in hertz."""
    draw = random.Random(1626)
    middle = closest() * 1000
    rows = []
    for k in range(SAMPLES):
        ms = middle + (k - SAMPLES // 2) * SAMPLE_GAP_MS + int(draw.random() * 40)
        noise = NOISE * (sum(draw.random() for _ in range(12)) - 6.0)
        frequency = heard(ms / 1000) + FREQUENCY_OFFSET + noise
        instant = (MIDDLE * 1000 + ms + CLOCK_OFFSET_MS) * 10**6
        rows.append(f"{{{instant}, {frequency:.2f}}},")
    for early in (120, 301):  # each of these changes places with the next
        rows[early], rows[early + 1] = rows[early + 1], rows[early]
    return rows


def write(folder, name, lines):
    """One file of these lines."""
    with open(os.path.join(folder, name), "w", encoding="ascii", newline="\n") as file:
        file.write("\n".join(lines) + "\n")


def write_rows(folder, name, says, rows):
    """One file for C: what a row holds, then the rows."""
    write(folder, name, [f"/* {says} */"] + rows)


def main():
    folder = sys.argv[1] if len(sys.argv) > 1 else os.path.dirname(os.path.abspath(__file__))
    x, y, z = observer()
    station = f"{{{x}, {y}, {z}, {CENTRE}}},"
    known = f"{{{CLOCK_OFFSET_MS / 1000}, {FREQUENCY_OFFSET}}},"
    write(folder, "table.sp3", orbit_file())
    write_rows(folder, "recording.inc",
               "Synthetic. Instant in ns since 1970-01-01, by the recorder's clock; frequency in Hz.", recording())
    write_rows(folder, "station.inc",
               "Synthetic. x, y, z of the observer in m, earth-fixed; centre frequency in Hz.", [station])
    write_rows(folder, "known.inc",
               "Clock offset in s and frequency offset in Hz that went into recording.inc.", [known])
    print(f"closest approach: {distance(closest()):.0f} m, {closest()} s after the table's row {ROWS // 2 + 1}")


if __name__ == "__main__":
    main()
