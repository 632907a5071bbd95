#!/usr/bin/env python3
"""Writes night.log, two-lines.log and mirrored.log: a night each of three gateway boxes' display buses, as the tap logs them.

Times are microseconds from midnight. A box starts up, then shows a line for each wave report: Clear, wait for the chip by
reading its status, sixteen characters. At 03:12 it does not wait: the line falls on a chip that is still clearing and is
ignored, and the box writes it again.

The box of two-lines.log has the NJU6635, which is faster, and shows the wave on the first line and the wind on the second,
each after an address set. In its night it is the second line that falls on a busy chip, at 02:57, its address set too.

The box of mirrored.log is of the same kind, with its chip mounted upside down, so that it uses pin configuration mode B.
"""
import pathlib
import struct

COMMAND, DATA, STATUS = 0, 1, 2  # the control byte: bit 0 is RS, bit 1 is R/W
CLEAR = 0x01
FIRST, SECOND = 0x80, 0x90  # address sets: where each of two lines begins


def at(hours, minutes, seconds=0):
    return ((hours * 60 + minutes) * 60 + seconds) * 1_000_000


class Box:
    """A box and its log; its chip's Function Set and its long and short time."""

    def __init__(self, function, long, short):
        self.function, self.long, self.short = function, long, short
        self.log = bytearray()

    def transfer(self, time, control, byte=0):
        self.log.extend(struct.pack("<HHQBB", 12, 1, time, control, byte))

    def reset(self, time):
        self.log.extend(struct.pack("<HHQ", 10, 2, time))

    def poll(self, time, until):
        """Reads the status every 200 until the chip is free, and answers when that was seen."""
        while True:
            self.transfer(time, STATUS)
            if time >= until:
                return time
            time += 200

    def start_up(self, time):
        self.reset(time)
        time += 15_000
        for code in (self.function, self.function, self.function, 0x0C, 0x06):
            self.transfer(time, COMMAND, code)
            time += 100
        self.transfer(time, COMMAND, CLEAR)

    def clear(self, time):
        """Clear; answers when the box, having waited, goes on."""
        self.transfer(time, COMMAND, CLEAR)
        return self.poll(time + 100, time + self.long) + 30

    def send(self, time, control, byte):
        """A short transfer; answers when the box, having waited, goes on."""
        self.transfer(time, control, byte)
        return self.poll(time + 20, time + self.short) + 30

    def write(self, time, text):
        for character in text.encode("ascii"):
            time = self.send(time, DATA, character)
        return time

    def show(self, time, text):
        """A line, as the box shows it when it waits."""
        self.write(self.clear(time), text)

    def show_in_haste(self, time, text):
        """A line written while the chip is still clearing, and again 5 ms later."""
        self.transfer(time, COMMAND, CLEAR)
        for n, character in enumerate(text.encode("ascii")):
            self.transfer(time + 100 + 50 * n, DATA, character)
        self.write(time + 5_000, text)

    def line(self, time, place, text):
        """One of two lines."""
        return self.write(self.send(time, COMMAND, place), text)

    def show_both(self, time, wave, wind):
        """Two lines, as the box shows them when it waits."""
        time = self.line(self.clear(time), FIRST, wave)
        self.line(time, SECOND, wind)

    def show_wind_in_haste(self, time, wave, wind):
        """The second line goes first, while the chip is still clearing; 5 ms later it is written again, and then the first."""
        self.transfer(time, COMMAND, CLEAR)
        self.transfer(time + 20, COMMAND, SECOND)
        for n, character in enumerate(wind.encode("ascii")):
            self.transfer(time + 40 + 17 * n, DATA, character)
        time = self.line(time + 5_000, SECOND, wind)
        self.line(time, FIRST, wave)

    def save(self, name):
        pathlib.Path(__file__).with_name(name).write_bytes(self.log)


def one_line():
    box = Box(0x38, 1640, 40)
    box.start_up(at(0, 0, 1))
    box.show(at(0, 41), "BUOY 07  H 1.9 m")
    box.show(at(1, 17), "BUOY 12  H 2.2 m")
    box.show(at(2, 3), "BUOY 07  H 2.4 m")
    box.log.extend(struct.pack("<HHQ", 10, 9, at(2, 30)))  # a record of the tap's own, of no kind that the mirror knows
    box.show(at(2, 48), "BUOY 31  H 2.0 m")
    box.show_in_haste(at(3, 12), "BUOY 12  H 2.7 m")
    box.transfer(at(3, 11, 59), STATUS)  # the tap's clock was set back for a moment
    box.show(at(4, 26), "BUOY 07  H 2.9 m")
    box.transfer(at(4, 50), COMMAND, 0x00)  # noise on the bus
    box.show(at(5, 9), "BUOY 31  H 2.6 m")
    box.save("night.log")


def two_lines():
    box = Box(0x32, 316, 28)  # two lines of sixteen, by its own sheet; times 10000 316 28
    box.start_up(at(0, 0, 1))
    box.show_both(at(0, 38), "BUOY 44  H 1.2 m", "WIND SW  9.5 m/s")
    box.show_both(at(1, 51), "BUOY 44  H 1.6 m", "WIND SW 12.1 m/s")
    box.show_wind_in_haste(at(2, 57), "BUOY 44  H 2.3 m", "WIND W  17.8 m/s")
    box.show(at(3, 40), "BUOY 45  H 2.0 m" + "WIND W  15.3 m/s")  # 32 characters at once: the first line runs on into the second
    for n in range(3):  # each line moves left by three places, round within itself
        box.send(at(4, 2, n), COMMAND, 0x18)
    box.show_both(at(4, 33), "BUOY 44  H 1.9 m", "WIND NW 11.0 m/s")
    box.send(at(4, 34), COMMAND, SECOND + 15)  # a cursor that blinks at the end of the second line
    box.send(at(4, 34, 1), COMMAND, 0x0F)
    box.save("two-lines.log")


def mirrored():
    box = Box(0x33, 316, 28)  # as that of two_lines, in mode B
    box.start_up(at(0, 0, 1))
    box.show_both(at(0, 12), "BUOY 52  H 1.4 m", "WIND N   7.7 m/s")
    box.show_both(at(1, 30), "BUOY 53  H 1.6 m", "WIND NE 10.3 m/s")
    box.save("mirrored.log")


one_line()
two_lines()
mirrored()
