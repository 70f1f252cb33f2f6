"""Likelihoods, as natural logarithms."""
import numpy as np

BESSEL = np.linspace(0, 40, 1601), np.log(np.i0(np.linspace(0, 40, 1601)))


def log_i0(x):
    """ln I0(x), the modified Bessel function of order 0: a table to 40, then x - ln(2 pi x) / 2."""
    return np.where(x < 40, np.interp(x, BESSEL[0], BESSEL[1]), x - 0.5 * np.log(2 * np.pi * x + 1e-9) + 0.003)


def log_sum(x):
    """ln(sum of e^x) over the last axis."""
    top = np.max(x, -1, keepdims=True)
    return top[..., 0] + np.log(np.sum(np.exp(x - top), -1))


def part(odds):
    """The probability of which the logarithm of the odds is given."""
    return 1 / (1 + np.exp(-np.clip(odds, -30, 30)))
