"""Reads the bytes of a module from left to right. Truncated parts and overlong encodings are refused."""
from .refused import Refused

DAMAGED = "link it again: the file is damaged"


class Bytes:
    def __init__(self, data, at=0, end=None, func=None):
        self.data, self.at, self.end, self.func = data, at, len(data) if end is None else end, func

    def refuse(self, what, at=None, fix=DAMAGED):
        raise Refused(what, fix, self.func and self.func.name, self.at if at is None else at)

    def byte(self):
        if self.at >= self.end:
            self.refuse("the module ends in the middle of a record")
        self.at += 1
        return self.data[self.at - 1]

    def u(self, bits=32):
        """A number of this many bits in LEB128."""
        shift, result, at = 0, 0, self.at
        while True:
            b = self.byte()
            result |= (b & 127) << shift
            shift += 7
            if b < 128:
                if result >> bits:
                    self.refuse(f"a number of more than {bits} bits", at)
                return result
            if shift >= bits:
                self.refuse("a number has too many bytes", at)

    def s(self, bits):
        shift, result, at = 0, 0, self.at
        while True:
            b = self.byte()
            result |= (b & 127) << shift
            shift += 7
            if b < 128:
                result -= (b & 64) << 1 << (shift - 7)
                if not -(1 << (bits - 1)) <= result < 1 << (bits - 1):
                    self.refuse(f"a number of more than {bits} bits", at)
                return result
            if shift >= bits:
                self.refuse("a number has too many bytes", at)

    def take(self, n):
        if self.at + n > self.end:
            self.refuse("the module ends in the middle of a record")
        self.at += n
        return self.data[self.at - n:self.at]

    def name(self):
        at, raw = self.at, self.take(self.u())
        try:
            return raw.decode("utf-8")
        except UnicodeDecodeError:
            return self.refuse("a name that is not UTF-8", at)

    def part(self, size):
        """The next bytes, to be read separately."""
        if self.at + size > self.end:
            self.refuse("a part is longer than the section that it is in")
        self.at += size
        return Bytes(self.data, self.at - size, self.at, self.func)
