"""Reads a general Matrix Market file by NumPy, which is faster than SciPy's own reader. The file may have comments only
before its size line."""
import numpy


def read(stream, words):
    """The shape, and the numbers of the entry lines, which have so many words; rows and columns are counted from 0."""
    line = stream.readline()
    while line.startswith(b"%"):
        line = stream.readline()
    rows, columns, count = (int(word) for word in line.split())
    numbers = numpy.fromstring(stream.read(), dtype=numpy.int64, sep=" ").reshape(count, words)
    return (rows, columns), numbers - ([1, 1] + [0] * (words - 2))
