"""The field of 256 elements, computed by itself from document 01: polynomials over two elements,
reduced by long division.

    fields.py mul A B | div A B | log A | pow E      prints the answer to one question

It is the measure for the program's answers, so it shares nothing with it: no table, no shift and
add.
"""
import sys

import usage

POLYNOMIAL = 0b100011101  # x^8 + x^4 + x^3 + x^2 + 1
ALPHA = 2


def times(a, b):
    """The product of two polynomials, coefficient by coefficient, and then the remainder."""
    product = 0
    for i in range(8):
        for j in range(8):
            product ^= ((a >> i) & 1 & (b >> j)) << (i + j)
    for degree in range(14, 7, -1):
        if product >> degree & 1:
            product ^= POLYNOMIAL << (degree - 8)
    return product


def power(e):
    x = 1
    for _ in range(e % 255):
        x = times(x, ALPHA)
    return x


def mul(a, b):
    return f"value {times(a, b)}"


def div(a, b):
    quotients = [q for q in range(256) if times(q, b) == a]
    return f"value {quotients[0]}" if b else "refused 44"


def log(a):
    return next((f"value {e}" for e in range(255) if power(e) == a), "refused 44")


def pow_(e):
    return f"value {power(e)}"


def answer(question):
    name, *numbers = question.split()
    return {"mul": mul, "div": div, "log": log, "pow": pow_}[name](*map(int, numbers))


if __name__ == "__main__":
    usage.help_or_use(__doc__, (2, 3))
    print(answer(" ".join(sys.argv[1:])))
