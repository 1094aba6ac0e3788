"""Tests of the short files: each meets the refusal that it is made for, and each number comes ten times."""

from collections import Counter

from ctfile import check
from expect import expect
from small import END, SHORT, TIMES, small_refusals, small_surplus, text_of


def small_files():
    expect("the short record", check(1, text_of(SHORT)), ("accepted", 1))
    expect("its molfile", check(0, text_of(SHORT[:END])), ("accepted", 1))
    files = list(small_refusals())
    for k, (number, line, column, data) in enumerate(files):
        expect("short file %d" % k, check(1, data), ("refused", number, line, column))
    expect("each number", Counter(number for number, *_ in files), {number: TIMES for number in (*range(3, 18), 19)})
    expect("no file twice", len({data for *_, data in files}), len(files))
    for number, line, column, data in small_surplus():
        expect("short molfile", check(0, data), ("refused", number, line, column))


ALL = [small_files]
