"""Division without a divide instruction: a 32-bit reciprocal, by Newton's method, estimates quotients from below."""
from .words import M64


class Divide:
    """Mixed into the builder: uses mk. All shifts by 64 and more give 0."""

    def _normal(self, d, bits):
        """d shifted left until bit `bits` - 1 is 1, and by how much."""
        mk, by = self.mk, 0
        for k in (32, 16, 8, 4, 2, 1)[0 if bits == 64 else 1:]:
            step = mk("mul", mk("ltu", d, 1 << (bits - k)), k)
            d = mk("shl", d, step)
            by = mk("add", by, step)
        return d, by

    def _minus(self, constant, x):
        return self.mk("add", self.mk("mul", x, M64), constant)

    def _reciprocal(self, d):
        """At most 2^63 / d, and only slightly less: d is from 2^31 to 2^32."""
        mk = self.mk
        r = self._minus(6063465472, mk("shr", mk("mul", d, 4042322161), 32))     # 48/17 - 32/17 x
        for _ in range(3):
            r = mk("shr", mk("mul", r, self._minus(1 << 32, mk("shr", mk("mul", d, r), 32))), 31)
        return mk("add", r, -4 & M64)

    def _once_more(self, q, r, d):
        """Adds 1 to the quotient q, and subtracts d from the remainder r, if r is not below d."""
        mk = self.mk
        mask = mk("add", mk("ltu", r, d), M64)
        return mk("sub", q, mask), mk("sub", r, mk("and", mask, d))

    def newton32(self, n, d):
        mk = self.mk
        high, by = self._normal(d, 32)
        recip, back = self._reciprocal(high), self._minus(63, by)
        q = mk("shr", mk("mul", n, recip), back)
        r = mk("sub", n, mk("mul", q, d))
        more = mk("shr", mk("mul", r, recip), back)
        q, r = mk("add", q, more), mk("sub", r, mk("mul", more, d))
        return self._once_more(q, r, d)

    def newton64(self, n, d):
        mk = self.mk
        high, by = self._normal(d, 64)
        recip = self._reciprocal(mk("add", mk("shr", high, 32), 1))
        q, r = 0, n
        for low, base in ((32, 63), (32, 63), (32, 63), (2, 93), (0, 95)):
            more = mk("shr", mk("mul", mk("shr", r, low), recip), self._minus(base, by))
            q, r = mk("add", q, more), mk("sub", r, mk("mul", more, d))
        q, r = self._once_more(q, r, d)
        return self._once_more(q, r, d)
