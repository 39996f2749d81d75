#!/usr/bin/env python3
"""A small firmware loop against the live bench program: host.py [PROGRAM ..]

Without words it runs `./bench --due`. Each command is sent alone, and its line is read before the next one is chosen: what is due is served
because a line said so, and a bit is what the data pin showed. It prints what it learnt.
"""
import subprocess
import sys
from pathlib import Path

SECOND = 1 << 64
EDGE = SECOND // 200_000  # 5 microseconds between two changes of the lines


class Bench:
    """The program, a command at a time."""

    def __init__(self, words):
        self.program = subprocess.Popen(words, stdin=subprocess.PIPE, stdout=subprocess.PIPE)
        self.now = 0
        self.bus = (1, 1)  # the clock and the data line
        self.holds = False  # whether the sensor holds the data line low
        self.due = None
        self.commands = 0
        self.view(0x00)

    def send(self, command):
        """Sends one command and reads its line; a refusal ends the run."""
        self.program.stdin.write(command)
        self.program.stdin.flush()
        line = self.program.stdout.readline().decode()
        if not line:
            sys.exit("host: the program has ended")
        self.commands += 1
        head, _, due = line.rstrip("\n").partition(" due ")
        words = head.split()
        if words[1] != "ok":
            sys.exit(f"host: {command.hex()} was refused: {words[1]}")
        self.holds = words[4] == "L"
        seconds, _, fraction = due.partition(" ")
        self.due = None if due == "-" else int(seconds, 16) * SECOND + int(fraction, 16)
        return words[5:]

    def timed(self, code, operands=b""):
        time = self.now.to_bytes(12, "big")
        return self.send(bytes([code]) + time + operands)

    def wait(self, until):
        """Lets time pass, and serves each due moment on the way."""
        while self.due is not None and self.due <= until:
            self.now = self.due
            report = self.timed(0x05)
            if report != ["-"]:
                print("reported:", *report)
        self.now = until

    def view(self, address):
        return self.send(bytes([0x0B, address]))[0]

    def accelerations(self, x, y, z):
        self.timed(0x02, b"".join(axis.to_bytes(4, "big", signed=True) for axis in (x, y, z)))

    def supply(self, millivolts):
        self.timed(0x04, millivolts.to_bytes(2, "big"))

    def image(self):
        return self.timed(0x0A)[0]

    # ---- I2C: the master drives the clock and releases the data line or holds it low

    def drive(self, scl, sda):
        """One change of the lines, an edge later; the data line is low if either side holds it."""
        self.wait(self.now + EDGE)
        while True:
            level = sda and not self.holds
            before, self.bus = self.bus, (scl, int(level))
            if before == self.bus:
                return
            self.timed(0x09, bytes([before[0] << 3 | before[1] << 2 | self.bus[0] << 1 | self.bus[1]]))

    def start(self):
        self.drive(self.bus[0], 1)
        self.drive(1, 1)
        self.drive(1, 0)
        self.drive(0, 0)

    def stop(self):
        self.drive(0, 0)
        self.drive(1, 0)
        self.drive(1, 1)

    def bit(self, level):
        """One clock pulse with the master's level; answers what the data line showed."""
        self.drive(0, level)
        self.drive(1, level)
        seen = self.bus[1]
        self.drive(0, level)
        return seen

    def write_byte(self, byte):
        for n in range(7, -1, -1):
            self.bit(byte >> n & 1)
        return self.bit(1) == 0

    def read_byte(self, acknowledge):
        byte = 0
        for _ in range(8):
            byte = byte << 1 | self.bit(1)
        self.bit(0 if acknowledge else 1)
        return byte

    def read(self, register, count):
        """A register read as firmware does it: pointer, repeated START, bytes."""
        self.start()
        if not (self.write_byte(0x70) and self.write_byte(register)):
            sys.exit("host: no acknowledge")
        self.start()
        if not self.write_byte(0x71):
            sys.exit("host: no acknowledge")
        read = [self.read_byte(n + 1 < count) for n in range(count)]
        self.stop()
        return read


def code(low, high):
    """A ten-bit code of its two register bytes."""
    number = high << 2 | low >> 6
    return number - 1024 if number >= 512 else number


def main():
    here = Path(__file__).resolve().parent.parent
    bench = Bench(sys.argv[1:] or [str(here / "bench"), "--due"])
    bench.wait(SECOND // 100)
    print("chip id over I2C: %02x" % bench.read(0x00, 1)[0])
    bench.accelerations(1_000_000, 0, -500_000)
    bench.wait(bench.now + SECOND)
    data = bench.read(0x02, 6)
    print("codes after a second:", *(code(*data[n : n + 2]) for n in (0, 2, 4)))
    bench.supply(0)
    bench.wait(bench.now + SECOND // 10)
    bench.supply(3300)
    print("stored image after the supply came back:", bench.image())
    print(f"{bench.commands} commands, time {bench.now / SECOND:.6f} s")


if __name__ == "__main__":
    main()
