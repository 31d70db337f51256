"""The demand of a sheet at an interval, and its witness: demand.py LIBRARY FILE INTERVAL. README.md says how LIBRARY is made."""
import ctypes
import sys
from ctypes import POINTER, c_char_p, c_size_t, c_uint8, c_uint32, c_uint64


class Judged(ctypes.Structure):
    _fields_ = [("number", c_uint8), ("place", c_size_t), ("modes", c_size_t), ("rows", c_size_t), ("tasks", c_size_t)]


class Demand(ctypes.Structure):
    _fields_ = [("number", c_uint8), ("place", c_size_t), ("amount", c_uint32), ("count", c_size_t)]


library, sheet, interval = ctypes.CDLL(sys.argv[1]), open(sys.argv[2], "rb").read(), int(sys.argv[3])
judge, demand = library.marnipode_judge, library.marnipode_demand
judge.restype, judge.argtypes = Judged, [c_char_p, c_size_t]
demand.restype = Demand
demand.argtypes = [c_char_p, c_size_t, c_uint64, POINTER(c_uint32), c_size_t, POINTER(c_uint8), c_size_t]

count = judge(sheet, len(sheet)).rows * (interval + 1)
cells, witness = (c_uint32 * count)(), (c_uint8 * interval)()
answer = demand(sheet, len(sheet), interval, cells, count, witness, interval)
print(f"refused {answer.number} at {answer.place}" if answer.number else f"demand {answer.amount} by {witness[:answer.count]}")
