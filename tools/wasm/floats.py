"""Pass 2f: floating-point numbers as the words of their bits. Arithmetic, conversions and comparisons call the
functions that compiler-rt has for machines without such instructions, if the module has been linked with them."""
from .traps import TOO_LARGE
from .words import M32, M64

FORMS = {"f32": ("sf", 32, 23, 127), "f64": ("df", 64, 52, 1023)}
INTEGERS = {"i32": ("si", 32), "i64": ("di", 64)}
# What the result of a comparison is tested for: (function, signed test with 0).
TESTS = {"eq": ("eq", "eq"), "ne": ("ne", "ne"), "lt": ("lt", "lt_s"), "gt": ("gt", "gt_s"), "le": ("le", "le_s"),
         "ge": ("ge", "ge_s")}
OWN = ("abs", "neg", "copysign")
# What compiler-rt has no functions for.
LACKS = {"sqrt": "square root", **dict.fromkeys(("ceil", "floor", "trunc", "nearest"), "rounding"), "min": "minimum",
         "max": "maximum"}


def builtin_name(name):
    """The name of compiler-rt's function for an instruction, or a name in its style if it has none; None for an
    instruction that needs no function."""
    kind, op = name.split(".")
    if op in OWN:
        return None
    if op == "demote_f64":
        return "__truncdfsf2"
    if op == "promote_f32":
        return "__extendsfdf2"
    parts = op.split("_")
    if parts[0] == "trunc" and len(parts) > 1:
        return f"__fix{'uns' if parts[-1] == 'u' else ''}{FORMS[parts[-2]][0]}{INTEGERS[kind][0]}"
    if parts[0] == "convert":
        return f"__float{'un' if parts[2] == 'u' else ''}{INTEGERS[parts[1]][0]}{FORMS[kind][0]}"
    mode = FORMS[kind][0]
    return f"__{op}{mode}{3 if op in ('add', 'sub', 'mul', 'div') else 2}"


def builtin(module, name):
    """The function of the module for an instruction, or None."""
    wanted = builtin_name(name)
    if module.by_name is None:
        module.by_name = {n: module.funcs[i] for i, n in module.func_names.items() if i < len(module.funcs)}
        module.by_name.update((n, module.funcs[i]) for n, (what, i) in module.exports.items() if what == 0)
    return module.by_name.get(wanted)


def lacks(name):
    """Whether compiler-rt has no function for an instruction, of integers or of floating-point numbers."""
    return name.startswith(("f32.", "f64.")) and name.split(".")[1] in LACKS


def instead_of(name):
    """What to do about an instruction whose function is missing."""
    if lacks(name):
        return f"compiler-rt has no {LACKS[name.split('.')[1]]}: write it with + - * / and comparisons, or use integers"
    return f"link {builtin_name(name)} and the other functions of compiler-rt, or use integers"


def bits_of_power(form, power, plus=0):
    """The bits of the number 2^power + plus, rounded down; `plus` is below 2^power."""
    _, _, fraction, bias = FORMS[form]
    return (power + bias << fraction) + (plus << fraction >> power)


class Floats:
    """Mixed into the builder."""

    def float_operation(self, ins):
        name, stack = ins.a, self.stack
        kind, op = name.split(".")
        if op in OWN:
            self.change_sign(op, 1 << (FORMS[kind][1] - 1))
            return
        func = builtin(self.module, name)
        if func is None:
            self.refuse(ins.at, f"a floating-point instruction ({name})",
                        instead_of(name))
        if op.startswith("trunc_"):
            self.truncate(ins, kind, op, func)
            return
        self.do_call(func, ins.at)
        if op in TESTS and self.g.at is not None:
            stack.append(self.operation(TESTS[op][1], 32, [stack.pop(), 0], ins.at))

    def change_sign(self, op, top):
        if op == "copysign":
            sign = self.mk("and", self.stack.pop(), top)
            self.stack.append(self.mk("or", self.mk("and", self.stack.pop(), top - 1), sign))
        elif op == "abs":
            self.stack.append(self.mk("and", self.stack.pop(), top - 1))
        else:
            self.stack.append(self.mk("xor", self.stack.pop(), top))

    def truncate(self, ins, kind, op, func):
        """A number that does not fit traps, or gives the nearest one that does, and 0 for NaN."""
        mk, x = self.mk, self.stack[-1]
        form, bits, unsigned = op.split("_")[-2], INTEGERS[kind][1], op.endswith("_u")
        width = FORMS[form][1]
        sign, size = mk("shr", x, width - 1), mk("and", x, (1 << (width - 1)) - 1)
        # The smallest magnitude that does not fit, for either sign.
        above = bits_of_power(form, bits if unsigned else bits - 1)
        below = bits_of_power(form, 0) if unsigned else above + 1 if bits >= FORMS[form][2] \
            else bits_of_power(form, bits - 1, 1)
        fits = mk("ltu", size, mk("add", mk("mul", sign, below - above & M64), above))
        if "_sat_" not in op:
            self.trap_if_zero(fits, ins.at, TOO_LARGE)
            self.do_call(func, ins.at)
            return
        self.stack[-1] = self.choose(fits, x, 0)
        self.do_call(func, ins.at)
        if self.g.at is None:
            return
        full = M32 if bits == 32 else M64
        least, most = (0, full) if unsigned else (1 << (bits - 1), (1 << (bits - 1)) - 1)
        edge = self.choose(sign, least, most)
        number = mk("ltu", size, bits_of_power(form, FORMS[form][3] + 1) + 1)
        self.stack[-1] = self.choose(fits, self.stack[-1], self.choose(number, edge, 0))
