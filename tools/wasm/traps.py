"""The kinds of traps, as the comments of a translated text name them."""
OUTSIDE = "an access outside the memory"
MISALIGNED = "a misaligned access"
FULL = "the stack is full"
INDIRECT = "an invalid indirect call"
UNREACHABLE = "unreachable"
BY_ZERO = "division by zero"
OVERFLOW = "division overflow"
TOO_LARGE = "a number that does not fit"

# Traps of an object where its module need not trap: its memory and stack are smaller, and alignment hints must hold.
NARROWER = OUTSIDE, MISALIGNED, FULL
