"""Talks with piperun --live as with another program, by Python's subprocess: it says a line of version 2, and takes the answer before it says
the next.

  coprocess.py PIPERUN

What is wanted of pipes, packet pipes and files is told here by docs/RULES.md. An answer that doesn't come within 10 seconds ends the talk.
"""
import os
import random
import select
import subprocess
import sys
from collections import deque
from itertools import groupby

LINES = 1000
DEADLINE = 10
CAPACITY = 65536
PACKET = 4096


def runs(data):
    """Bytes as version 2 shows them: runs of four equal ones or more as N*hh, and digits between them."""
    pieces = []
    digits = ""
    for byte, equal in groupby(data):
        count = len(list(equal))
        if count < 4:
            digits += f"{byte:02x}" * count
            continue
        pieces += [digits] if digits else []
        pieces.append(f"{count}*{byte:02x}")
        digits = ""
    pieces += [digits] if digits else []
    return "+".join(pieces) or "-"


class Talk:
    """The program, and the lines that were said to it."""

    def __init__(self, program):
        # without a buffer, so that select tells of all that came
        self.run = subprocess.Popen([program, "--live", "--strict"], stdin=subprocess.PIPE, stdout=subprocess.PIPE, bufsize=0)
        self.lines = 0
        self.came = b""

    def say(self, line):
        self.lines += 1
        left = line.encode() + b"\n"
        while left:
            left = left[self.run.stdin.write(left):]

    def answer(self):
        while b"\n" not in self.came:
            if not select.select([self.run.stdout], [], [], DEADLINE)[0]:
                sys.exit(f"line {self.lines}: no answer in {DEADLINE} seconds")
            more = os.read(self.run.stdout.fileno(), 65536)
            if not more:
                sys.exit(f"line {self.lines}: the output ended")
            self.came += more
        line, self.came = self.came.split(b"\n", 1)
        return line.decode()

    def ask(self, line, wanted):
        self.say(line)
        answer = self.answer()
        if answer != wanted:
            sys.exit(f"line {self.lines}: {line[:100]}: '{answer[:100]}', and not '{wanted[:100]}'")

    def end(self):
        """The end of the input ends it with status 0, and it answers nothing more."""
        self.run.stdin.close()
        rest = self.came + self.run.stdout.read()
        status = self.run.wait(DEADLINE)
        if rest or status:
            sys.exit(f"it ended with status {status} and answered {rest[:100]}")


def some_bytes(draw, most):
    """Runs of bytes, so that both kinds of pieces come."""
    return b"".join(bytes([draw.randrange(256)]) * draw.choice([1, 1, 2, 3, 4, 30, 500]) for _ in range(draw.randint(1, 12)))[:most]


def bytes_through_a_pipe(talk, draw, held):
    """Descriptors 0 and 1, without waiting: all that is written is kept in a bytearray."""
    if draw.random() < 0.5:
        data = some_bytes(draw, PACKET)
        fits = len(data) <= CAPACITY - len(held)
        talk.ask(f"1 write 1 {runs(data)}", f"count {len(data)}" if fits else "EAGAIN")
        held += data if fits else b""
    else:
        size = draw.randint(1, 3000)
        talk.ask(f"1 read 0 {size}", f"data {runs(held[:size])}" if held else "EAGAIN")
        del held[:size]


def packets_through_a_pipe(talk, draw, packets):
    """Descriptors 2 and 3, without waiting: a read takes a packet, and discards what it doesn't give."""
    if draw.random() < 0.6:
        data = some_bytes(draw, PACKET)
        fits = len(packets) < CAPACITY // PACKET
        talk.ask(f"1 write 3 {runs(data)}", f"count {len(data)}" if fits else "EAGAIN")
        if fits:
            packets.append(data)
    else:
        size = draw.randint(1, 800)
        talk.ask(f"1 read 2 {size}", f"data {runs(packets.popleft()[:size])}" if packets else "EAGAIN")


def bytes_of_a_file(talk, draw, file):
    """Descriptor 4, of the file 'log': a gap before what is written is filled with zeros."""
    offset = draw.randrange(2000)
    data = some_bytes(draw, 1000)
    talk.ask(f"1 lseek 4 {offset} set", f"offset {offset}")
    talk.ask(f"1 write 4 {runs(data)}", f"count {len(data)}")
    file += bytes(max(0, offset - len(file)))
    file[offset:offset + len(data)] = data
    talk.ask("1 lseek 4 0 end", f"offset {len(file)}")
    talk.ask("file log", f"file {runs(file)}")
    talk.ask("1 lseek 4 -1 set", "EINVAL")


def a_read_that_waits(talk, draw, call):
    """Descriptors 5 and 6: a read waits under the number until there are bytes."""
    data = some_bytes(draw, PACKET)
    talk.ask("1 read 5 4096", f"parked {call}")
    talk.ask(f"resume {call}", f"parked {call}")
    talk.ask(f"1 write 6 {runs(data)}", f"count {len(data)}")
    talk.ask(f"resume {call}", f"data {runs(data)}")
    talk.ask(f"interrupt {call}", "no call")


def main():
    talk = Talk(sys.argv[1])
    draw = random.Random(1)
    held, packets, file, call = bytearray(), deque(), bytearray(), 1
    talk.say("piperun 2")
    talk.ask("start", "pid 1")
    talk.ask("1 pipe nonblock", "fds 0 1")
    talk.ask("1 pipe direct,nonblock", "fds 2 3")
    talk.ask("1 open log rw creat", "fd 4")
    talk.ask("1 pipe", "fds 5 6")
    while talk.lines < LINES:
        which = draw.randrange(10)
        if which < 4:
            bytes_through_a_pipe(talk, draw, held)
        elif which < 8:
            packets_through_a_pipe(talk, draw, packets)
        elif which < 9:
            bytes_of_a_file(talk, draw, file)
        else:
            a_read_that_waits(talk, draw, call)
            call += 1
    talk.end()


main()
