#!/usr/bin/env python3
"""The line on standard input, in Python: solve.py LIBRARY WORD [cert | parts]."""
import ctypes
import sys


class Options(ctypes.Structure):
    _fields_ = [(name, ctypes.c_uint32) for name in ("budget", "depth", "total", "dfpn", "cert")]


class Refusal(ctypes.Structure):
    _fields_ = [("number", ctypes.c_uint32)] + [(name, ctypes.c_size_t) for name in ("node", "property", "value", "point")]


class Tsumego:
    def __init__(self, path):
        self.library = ctypes.CDLL(path)
        self.library.tsumego_reason.restype = ctypes.c_char_p

    def reason(self, number):
        """Why something is refused with this number, or no text."""
        return self.library.tsumego_reason(ctypes.c_uint32(number)).decode()

    def explain(self, sgf, record=False):
        """The number of a refusal or 0, the node from 1, the property, its value and the point from 0: None where there is none."""
        found = Refusal()
        status = self.library.tsumego_explain(sgf, ctypes.c_size_t(len(sgf)), int(record), ctypes.byref(found))
        if status > 1:
            raise MemoryError if status == 2 else ValueError(f"status {status}")
        none = ctypes.c_size_t(-1).value
        return (found.number, *(None if at == none else at for at in (found.node, found.property, found.value, found.point)))

    def answer(self, word, sgf, budget=100_000, depth=512, total=0, dfpn=0, cert=0, parts=0):
        """The line, and whether it says that something was refused. Other threads of Python run meanwhile."""
        options = {"solve": [ctypes.byref(Options(budget, depth, total, dfpn, cert))], "check": [parts], "score": []}[word]
        call, length, room, status = getattr(self.library, "tsumego_" + word), ctypes.c_size_t(), 128, 3
        while status == 3:
            out = ctypes.create_string_buffer(room)
            status = call(sgf, ctypes.c_size_t(len(sgf)), *options, out, ctypes.c_size_t(room), ctypes.byref(length))
            room = length.value
        if status > 1:
            raise MemoryError if status == 2 else ValueError(f"status {status}")
        return out.raw[:length.value], status == 1


if __name__ == "__main__":
    cert = ("", "cert", "parts").index("".join(sys.argv[3:]))
    line, refused = Tsumego(sys.argv[1]).answer(sys.argv[2], sys.stdin.buffer.read(), cert=cert, parts=cert > 1)
    sys.stdout.buffer.write(line)
    sys.exit(refused)
