#!/usr/bin/env python3
"""Prints the rays by sporadic E of a path of 1,600 km:  es.py

Library and header as rays.py has them. Exit status: as es.c has it.
"""
import ctypes
import sys

from rays import EARTH_KM, LIBRARY, RAY, SENTENCES


class Hop(ctypes.Structure):
    """struct ray_es_hop"""
    _fields_ = [(name, ctypes.c_float) for name in ('b', 'hn', 'hp', 'timed')]


class Modes(ctypes.Structure):
    """struct ray_es_modes"""
    _fields_ = [('refusal', ctypes.c_uint32), ('slot4', Hop), ('slot5', Hop)]


Fs = ctypes.c_float * (RAY['POINTS'] * RAY['POINT_NUMBERS'])
Hs = ctypes.c_float * RAY['POINTS']


def load(path):
    """The call, with its form."""
    esmod = ctypes.CDLL(path).ray_esmod
    esmod.restype = Modes
    esmod.argtypes = [ctypes.c_size_t, ctypes.POINTER(ctypes.c_float), ctypes.POINTER(ctypes.c_float)] + 5 * [ctypes.c_float]
    return esmod


def print_slot(slot, hop):
    if hop.hn > 0:
        print('slot %d: %.3f deg, hops %.0f, height %.1f km, delay %.3f ms' % (slot, hop.b, hop.hn, hop.hp, hop.timed))
    else:
        print('slot %d: empty' % slot)


def main():
    # Two points count: lower decile, median and upper decile in MHz, the layer's height in km.
    points = [((3.1, 5.0, 7.4), 110.0), ((2.2, 3.6, 5.9), 105.0)]
    fs = Fs(*(mhz for three, _ in points for mhz in three))
    hs = Hs(*(height for _, height in points))
    km = 1600.0
    modes = load(LIBRARY)(len(points), fs, hs, km / EARTH_KM, km, 3.0, 14.2, 1.0)
    if modes.refusal:
        print('refused, limit %d: %s' % (modes.refusal, SENTENCES[modes.refusal]), file=sys.stderr)
        return modes.refusal
    print_slot(4, modes.slot4)
    print_slot(5, modes.slot5)
    return 0


if __name__ == '__main__':
    sys.exit(main())
