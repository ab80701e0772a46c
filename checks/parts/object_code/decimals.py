"""Decimal numbers that lie hard between two floating-point ones: in the middle, by a digit below and above it, cut after some
digits; and numbers of all sizes."""
import math
from decimal import Decimal, localcontext

FLOATS = [5e-324, 1.5e-323, 2.2250738585072014e-308, 1e-300, 7.1e-30, 0.1, 1.0, 4503599627370497.5, 9007199254740992.0, 1e22, 6.02e23,
          3.3e40, 1e150, 1.7976931348623155e308]


def middle_after(x):
    """The number in the middle between a floating-point number and the next one, exactly."""
    with localcontext() as context:
        context.prec = 1200
        return (Decimal(x) + Decimal(math.nextafter(x, math.inf))) / 2


def decimals():
    for x in FLOATS:
        with localcontext() as context:
            context.prec = 1200
            middle = middle_after(x)
            yield from (f"{middle:f}", f"{middle:e}", f"{middle.next_plus():f}", f"{middle.next_minus():e}")
        for digits in (17, 18, 19, 20, 21, 25, 40, 300):
            yield f"{middle:.{digits}e}"
    for power in range(-400, 400, 9):
        yield from (f"1e{power}", f"1234567890123456789.25e{power}", f"12345678901234567890123456789e{power}")
    yield from ("0.0", "0e9", "1e99999999999999999999", "1e-99999999999999999999", f"0.{'0' * 400}1", f"{'9' * 400}.0", f"0.{'0' * 40}", f"0.{'0' * 40}e5", f"{'1' * 30}e0", f"{'0' * 3}.5")
