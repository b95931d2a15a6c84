"""The library's doors, called on areas that are fenced in: a page before and a page behind may not be touched."""

import ctypes
import mmap
import os
import pathlib

ROOT = pathlib.Path(__file__).resolve().parent.parent
LIBRARY = os.environ.get("FIRUVANTA_LIBRARY", ROOT / "target" / "host" / "libfiruvanta.so")
PAGE = mmap.PAGESIZE
PROT_NONE = 0
READ_AND_WRITE = mmap.PROT_READ | mmap.PROT_WRITE
ADDRESS, LENGTH = ctypes.c_void_p, ctypes.c_size_t

libc = ctypes.CDLL(None, use_errno=True)
libc.mprotect.argtypes = [ctypes.c_void_p, ctypes.c_size_t, ctypes.c_int]
library = ctypes.CDLL(str(LIBRARY))


def exported(name, *parameters):
    function = getattr(library, name)
    function.argtypes = list(parameters)
    function.restype = ctypes.c_uint32
    return function


def protect(address, length, access):
    if libc.mprotect(address, length, access) != 0:
        raise OSError(ctypes.get_errno(), "mprotect")


class Fence:
    """Room for one area at a time. A read or a write in the page on either side ends the process."""

    def __init__(self, length):
        self.room = -(-length // PAGE) * PAGE
        self.area = mmap.mmap(-1, PAGE + self.room + PAGE)
        self.address = ctypes.addressof(ctypes.c_char.from_buffer(self.area))
        protect(self.address, PAGE, PROT_NONE)
        protect(self.address + PAGE + self.room, PAGE, PROT_NONE)

    def place(self, length, behind):
        """Where an area of this length starts, against the fence behind it or against the one before it."""
        return PAGE + self.room - length if behind else PAGE

    def allow(self, access):
        protect(self.address + PAGE, self.room, access)


firuvanta_check = exported("firuvanta_check", ADDRESS, LENGTH)


class CheckDoor(Fence):
    """The check's door, for strings up to a length."""

    def check_at(self, start, string):
        """The door's number for the string at this place of the area."""
        end = start + len(string)
        self.area[start:end] = string
        number = firuvanta_check(self.address + start, len(string))
        if self.area[start:end] != string:
            raise AssertionError(f"the lent bytes were changed: {string[:64].hex(' ')}")
        return number

    def check_read_only(self, string):
        """The same with the string in pages that cannot be written."""
        self.area[PAGE : PAGE + len(string)] = string
        self.allow(mmap.PROT_READ)
        number = firuvanta_check(self.address + PAGE, len(string))
        self.allow(READ_AND_WRITE)
        return number

    def check(self, string):
        """The door's number, the same with the string against the fence behind it and against the one before it."""
        number = self.check_at(self.place(len(string), True), string)
        again = self.check_at(self.place(len(string), False), string)
        if number != again:
            raise AssertionError(f"{number} and then {again} for one string: {string[:64].hex(' ')}")
        return number


def check_null():
    """The door's number for no bytes at NULL."""
    return firuvanta_check(None, 0)


# bytes of one thing in each area that a run is lent
READ = {"plan": 1, "tables": 8, "cells": 8, "marks": 1}
WRITTEN = {"work": 8, "work_marks": 1, "result": 8, "result_marks": 1}
# the most things that the tests lend
MOST = {
    "plan": 1 << 20,
    "tables": 1 << 10,
    "cells": 1 << 16,
    "marks": 1 << 16,
    "work": 800_000,
    "work_marks": 800_000,
    "result": 70_000,
    "result_marks": 70_000,
}
SIDE = bytes(range(1, 256)) * (PAGE // 255)


class Area(Fence):
    """Room for one area that a run is lent: against one fence, with something known on its other side."""

    def __init__(self, length):
        super().__init__(length + len(SIDE))

    def framed(self, content):
        return SIDE + content if self.behind else content + SIDE

    def lend(self, content, behind):
        """Places the content; gives its address."""
        self.behind = behind
        framed = self.framed(content)
        self.start = self.place(len(framed), behind)
        self.end = self.start + len(framed)
        self.area[self.start : self.end] = framed
        return self.address + self.start + (len(SIDE) if behind else 0)

    def holds(self, content):
        """Whether the area holds just this, with its side as it was."""
        return self.area[self.start : self.end] == self.framed(content)


class RunDoor:
    """The run's door, with a fence around each lent area."""

    def __init__(self):
        area = [ADDRESS, LENGTH]
        self.run = exported("firuvanta_run", *area * len(READ), LENGTH, *area * len(WRITTEN), ADDRESS)
        self.areas = {name: Area(size * MOST[name]) for name, size in (READ | WRITTEN).items()}
        self.areas["rows"] = Area(8)

    def lend(self, names, lent, behind, null):
        """The parameters of areas; an empty one is lent at NULL where null is set."""
        parameters = []
        for name, size in names.items():
            address = self.areas[name].lend(lent[name], behind)
            parameters += [None if null and not lent[name] else address, len(lent[name]) // size]
        return parameters

    def call(self, lent, limit, behind, null=False):
        """The door's number for these bytes of every area, against the fences behind them or those before them."""
        read = self.lend(READ, lent, behind, null)
        written = self.lend(WRITTEN, lent, behind, null)
        return self.run(*read, limit, *written, self.areas["rows"].lend(lent["rows"], behind))

    def call_read_only(self, lent, limit):
        """The same with what is only read in pages that cannot be written."""
        read = self.lend(READ, lent, True, False)
        written = self.lend(WRITTEN, lent, True, False)
        rows = self.areas["rows"].lend(lent["rows"], True)
        for name in READ:
            self.areas[name].allow(mmap.PROT_READ)
        number = self.run(*read, limit, *written, rows)
        for name in READ:
            self.areas[name].allow(READ_AND_WRITE)
        return number

    def changed(self, expected):
        """The areas that hold something else than expected, or beside which something was written."""
        return [name for name, content in expected.items() if not self.areas[name].holds(content)]
