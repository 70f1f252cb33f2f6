#!/usr/bin/env python3
"""The receiver for Python, by ctypes over the library for C.

    navtex.py LIBRARY listen < AIR              the log of an air file
    navtex.py LIBRARY resume STATE NEW < AIR    the same, from the state in the file STATE; the new
                                                state goes to the file NEW
    navtex.py LIBRARY live PIECE FAMILIES < AIR the log by a receiver that is given the lines one by
                                                one, their elements in pieces of so many; it holds
                                                so many families on each channel
    navtex.py LIBRARY sendings FAMILIES < AIR   of each entry that isn't printed by the end, on which
                                                channel it was printed, and from how many sendings
                                                it is put together

LIBRARY is a shared object, of libnx_c.a; examples/c/check makes one.

A receiver that hears elements as they come:

    library = Library("libnavtex.so")
    with library.receiver(moment) as receiver:
        for entry in receiver.hear(elements):
            print(entry.station, entry.subject, entry.number, entry.text.decode())
        for entry in receiver.close():
            ...

One that takes the sendings of a message together, 200 messages on each channel:

    with library.receiver(moment, families=200) as receiver:
        for entry in receiver.hear(elements):
            print(entry.text.decode(), "from", receiver.sendings(), "sendings")
"""

import ctypes
import enum
import pathlib
import sys
import typing


class Status(enum.IntEnum):
    """How a call ended: `enum nx_status` of navtex.h, as far as these calls go."""

    DONE = 0
    NO_ROOM = 1
    READ = 2
    WRITE = 3
    MEMORY = 4
    AIR_TOO_LONG = 6
    LINE_LONG = 7
    LINE_CUT = 8
    BAD_LINE = 9
    NO_MOMENT = 10
    MOMENT_RANGE = 11
    MOMENT_BACK = 12
    VITAL = 13
    STATE_LINE = 14
    STATE_CUT = 15
    STATE_NO_ROOM = 16
    NO_STATION = 28
    CLOSED = 32
    ALREADY_OPEN = 33
    NO_CHANNEL = 34
    NO_ELEMENT = 35
    NO_SUBJECT = 36
    NO_ENTRY = 37
    TOO_MANY_FAMILIES = 38


MAX_ENTRY = 4163
MAX_FAMILIES = 200


class Place(ctypes.Structure):
    """Where a fault stands: `struct nx_place`."""

    _fields_ = [("line", ctypes.c_uint64), ("text_line", ctypes.c_uint64), ("at", ctypes.c_uint64)]


class Fault(Exception):
    """A run that ended early; `log` is that of the whole lines before its fault."""

    def __init__(self, status, place, log):
        super().__init__(f"{status.name} at line {place.line}")
        self.status, self.place, self.log = status, place, log


class Refusal(Exception):
    """A call of a receiver that was refused; the receiver is as it was."""

    def __init__(self, status):
        super().__init__(Status(status).name)
        self.status = Status(status)


class How(enum.IntEnum):
    """How a message ended."""

    FULL = 0
    CUT = 1
    LONG = 2


class Entry(typing.NamedTuple):
    """What is printed of a message; `logged` has its bytes as they stand in the log."""

    channel: int
    station: str
    subject: str
    number: int
    moment: int
    how: How
    errors: int
    text: bytes
    logged: bytes


class _Handle(ctypes.Structure):
    """`struct nx_receiver`."""

    _fields_ = [("kept", ctypes.c_void_p)]


class _Told(ctypes.Structure):
    """`struct nx_entry`."""

    _fields_ = [("moment", ctypes.c_uint64), ("length", ctypes.c_size_t), ("errors", ctypes.c_uint16)] + [
        (name, ctypes.c_uint8) for name in ("channel", "station", "subject", "number", "how")
    ]


class Library:
    """The calls of a library that listen."""

    def __init__(self, library):
        self._library = ctypes.CDLL(str(library))
        text, room, size, byte = ctypes.c_char_p, ctypes.c_char_p, ctypes.c_size_t, ctypes.c_uint8
        count, place = ctypes.POINTER(ctypes.c_size_t), ctypes.POINTER(Place)
        handle, moment = ctypes.POINTER(_Handle), ctypes.c_uint64
        for call, words in {
            "nx_listen": [text, size, room, size, count, place],
            "nx_resume": [text, size, text, size, room, size, count, room, size, count, place],
            "nx_open": [handle, moment, size],
            "nx_open_from": [handle, text, size, size],
            "nx_hear": [handle, byte, text, size, count, room, size, count],
            "nx_sendings": [handle, byte, ctypes.POINTER(ctypes.c_uint64)],
            "nx_set_moment": [handle, moment],
            "nx_refuse_station": [handle, byte, byte],
            "nx_accept_station": [handle, byte, byte],
            "nx_refuse_subject": [handle, byte, byte],
            "nx_accept_subject": [handle, byte, byte],
            "nx_save": [handle, room, size, count],
            "nx_close": [handle, room, size, count],
            "nx_log_entry": [text, size, ctypes.POINTER(_Told), room, size, count],
        }.items():
            getattr(self._library, call).argtypes = words
            getattr(self._library, call).restype = ctypes.c_uint32
        self._library.nx_abandon.argtypes = [handle]
        self._library.nx_abandon.restype = None

    def receiver(self, moment=None, state=None, families=0):
        """A receiver that is open, at a moment or from a state, and holds so many families on each
        channel: with 0 each sending is taken alone."""
        return Receiver(self._library, moment, state, families)

    def entry(self, logged):
        """The entry of a log with which these bytes begin."""
        return _entry(self._library, logged)

    def listen(self, air):
        """The log of an air file."""
        log, written, place = _Room(len(air)), ctypes.c_size_t(), Place()
        status = self._library.nx_listen(air, len(air), log.bytes, log.size, written, place)
        return _log(status, place, log.text(written))

    def resume(self, state, air):
        """The log of an air file, going on from a state, and the new state."""
        log, written, place = _Room(len(air)), ctypes.c_size_t(), Place()
        left, state_written = _Room(1 << 14), ctypes.c_size_t()
        status = self._library.nx_resume(
            state, len(state), air, len(air), log.bytes, log.size, written, left.bytes, left.size, state_written, place
        )
        return _log(status, place, log.text(written)), left.text(state_written)


def _entry(library, logged):
    told, text, written = _Told(), _Room(MAX_ENTRY), ctypes.c_size_t()
    _done(library.nx_log_entry(logged, len(logged), told, text.bytes, text.size, written))
    return Entry(
        told.channel,
        chr(told.station),
        chr(told.subject),
        told.number,
        told.moment,
        How(told.how),
        told.errors,
        text.text(written),
        logged[: told.length],
    )


def _done(status):
    if status != Status.DONE:
        raise Refusal(status)


class Receiver:
    """A receiver that is kept between calls, on three channels. To be used in a `with`, which gives
    its memory back; `close` hands out first what the end prints."""

    def __init__(self, library, moment, state, families):
        self._library, self._handle, self._room = library, _Handle(), _Room(MAX_ENTRY)
        if state is None:
            _done(library.nx_open(self._handle, moment, families))
        else:
            _done(library.nx_open_from(self._handle, state, len(state), families))
            if moment is not None:
                self.set_moment(moment)

    def __enter__(self):
        return self

    def __exit__(self, *_):
        self._library.nx_abandon(self._handle)

    def hear(self, elements, channel=0):
        """Hears elements, each 0 or 1, and gives each entry that they end."""
        elements, heard, written = bytes(elements), ctypes.c_size_t(), ctypes.c_size_t()
        while elements:
            _done(
                self._library.nx_hear(
                    self._handle, channel, elements, len(elements), heard, self._room.bytes, self._room.size, written
                )
            )
            elements = elements[heard.value :]
            if written.value:
                yield _entry(self._library, self._room.text(written))

    def close(self):
        """Ends the elements, and gives each entry that their end prints."""
        written = ctypes.c_size_t()
        while self._handle.kept:
            _done(self._library.nx_close(self._handle, self._room.bytes, self._room.size, written))
            if written.value:
                yield _entry(self._library, self._room.text(written))

    def sendings(self, channel=0):
        """From how many sendings the entry is put together that the channel printed last."""
        sendings = ctypes.c_uint64()
        _done(self._library.nx_sendings(self._handle, channel, sendings))
        return sendings.value

    def set_moment(self, moment):
        _done(self._library.nx_set_moment(self._handle, moment))

    def refuse_station(self, station, channel=0):
        _done(self._library.nx_refuse_station(self._handle, channel, ord(station)))

    def accept_station(self, station, channel=0):
        _done(self._library.nx_accept_station(self._handle, channel, ord(station)))

    def refuse_subject(self, subject, channel=0):
        _done(self._library.nx_refuse_subject(self._handle, channel, ord(subject)))

    def accept_subject(self, subject, channel=0):
        _done(self._library.nx_accept_subject(self._handle, channel, ord(subject)))

    def save(self):
        """The text of a state, with which another receiver goes on."""
        state, written = _Room(1 << 14), ctypes.c_size_t()
        _done(self._library.nx_save(self._handle, state.bytes, state.size, written))
        return state.text(written)


class _Room:
    """Room for a text that a call writes."""

    def __init__(self, size):
        # never NULL, also for no bytes
        self.bytes, self.size = ctypes.create_string_buffer(size + 1), size

    def text(self, written):
        return self.bytes.raw[: min(written.value, self.size)]


def _log(status, place, log):
    if status != Status.DONE:
        raise Fault(Status(status), place, log)
    return log


def _live(library, air, piece, families):
    """The entries of an air file, whose lines are given to a receiver one by one; beside each, from
    how many sendings it is, where it was printed before the end."""
    with library.receiver(moment=0, families=families) as receiver:
        for line in air.splitlines():
            word, _, rest = line.decode().partition(" ")
            channel = int(word[-1]) if word[-1].isdecimal() else 0
            if word == "T":
                receiver.set_moment(int(rest))
            elif word[0] == "B":
                digits = [int(digit) for digit in rest]
                for at in range(0, len(digits), piece):
                    for entry in receiver.hear(digits[at : at + piece], channel):
                        yield entry, receiver.sendings(channel)
            else:
                command = {
                    "RS": receiver.refuse_station,
                    "AS": receiver.accept_station,
                    "RJ": receiver.refuse_subject,
                    "AJ": receiver.accept_subject,
                }[word[:2]]
                command(rest, channel)
        for entry in receiver.close():
            yield entry, None


def main(library, command, *files):
    receiver, air = Library(pathlib.Path(library).resolve()), sys.stdin.buffer.read()
    if command == "listen":
        sys.stdout.buffer.write(receiver.listen(air))
    elif command == "live":
        for entry, _ in _live(receiver, air, int(files[0]), int(files[1])):
            sys.stdout.buffer.write(entry.logged)
    elif command == "sendings":
        for entry, sendings in _live(receiver, air, 7, int(files[0])):
            if sendings is not None:
                print(entry.channel, sendings)
    else:
        state, new = map(pathlib.Path, files)
        log, left = receiver.resume(state.read_bytes(), air)
        sys.stdout.buffer.write(log)
        new.write_bytes(left)


if __name__ == "__main__":
    try:
        main(*sys.argv[1:])
    except Fault as fault:
        sys.stdout.buffer.write(fault.log)
        sys.exit(f"navtex.py: {fault}")
