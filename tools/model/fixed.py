"""Fixed-point numbers of 32 bits, in 65,536ths, and distances and slopes made of them."""

UNIT = 65536
LEAST, GREATEST = -(2**31), 2**31 - 1


def wrap32(number):
    """The number of 32 bits that a whole number wraps to."""
    return ((number + 2**31) & 0xFFFFFFFF) - 2**31


def wrap16(number):
    """The number of 16 bits that a whole number wraps to."""
    return ((number + 2**15) & 0xFFFF) - 2**15


def toward_zero(number, by):
    """A quotient without its rest."""
    quotient = abs(number) // abs(by)
    return quotient if (number < 0) == (by < 0) else -quotient


def fixed_mul(left, right):
    """The product of two numbers in fixed point."""
    return wrap32((left * right) >> 16)


def fixed_div(number, by):
    """The quotient of two numbers in fixed point; where it would be too great, the greatest or the least number."""
    if abs(number) >> 14 >= abs(by):
        return LEAST if (number < 0) != (by < 0) else GREATEST
    return toward_zero(number * UNIT, by)


def slope_div(number, by):
    """A slope from 0 to 1 in 2048ths."""
    if by < 512:
        return 2048
    return min(2048, ((number << 3) & 0xFFFFFFFF) // (by >> 8))


def aprox_distance(dx, dy):
    """About the length of a way."""
    dx, dy = abs(dx), abs(dy)
    return wrap32(dx + dy - (min(dx, dy) >> 1))
