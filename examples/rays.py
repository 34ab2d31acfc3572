#!/usr/bin/env python3
"""Prints the rays of a job:  rays.py JOB

The shared library is the one that $RAY_LIBRARY names, else ../target/libray.so, which the script
shared-library makes. Sizes, places and sentences are read from ../include/ray.h. Exit status: as
rays.c has it.
"""
import ctypes
import os
import re
import struct
import sys

HERE = os.path.dirname(os.path.abspath(__file__))
LIBRARY = os.environ.get('RAY_LIBRARY', os.path.join(HERE, '../target/libray.so'))

with open(os.path.join(HERE, '../include/ray.h'), encoding='utf-8') as file:
    HEADER = file.read()
# RAY['JOB_FREQ'] is the header's RAY_JOB_FREQ; only whole numbers.
RAY = {name: int(value) for name, value in re.findall(r'^#define RAY_(\w+) (\d+)(?:\s|$)', HEADER, re.M)}
SENTENCES = {RAY[name]: text for name, text in re.findall(r'case RAY_(\w+): return "(.*)";', HEADER)}
EARTH_KM = 6370.0
LAYERS = {RAY['LAYER_E']: 'E', RAY['LAYER_F1']: 'F1', RAY['LAYER_F2']: 'F2'}


def load(path):
    """The library, with the form of its job call."""
    library = ctypes.CDLL(path)
    library.ray_job.restype = ctypes.c_uint32
    library.ray_job.argtypes = [ctypes.c_char_p, ctypes.c_size_t, ctypes.c_char_p, ctypes.c_size_t]
    return library


def solve(library, job):
    """The refusal's number, 0 where there is none, and the answer's bytes."""
    answer = ctypes.create_string_buffer(RAY['ANSWER_BYTES'])
    number = library.ray_job(job, len(job), answer, RAY['ANSWER_BYTES'])
    return number, answer.raw


def count(data, name, index=0):
    """An unsigned word by its name in the header."""
    return struct.unpack_from('<I', data, 4 * (RAY[name] + index))[0]


def number(data, name, index=0):
    """A float by its name in the header."""
    return struct.unpack_from('<f', data, 4 * (RAY[name] + index))[0]


def is_ray(job, answer, slot):
    """Whether a slot holds a ray: layer 5 alone tells an empty one."""
    return (count(answer, 'ANSWER_ITMOD', slot) != RAY['LAYER_EMPTY']
            and number(answer, 'ANSWER_DELMOD', slot) >= number(job, 'JOB_AMIND'))


def print_answer(name, job, answer):
    rays = [slot for slot in range(RAY['SLOTS']) if is_ray(job, answer, slot)]
    km = ctypes.c_float(number(job, 'JOB_GHOP') * EARTH_KM).value
    print('%s: %.3f MHz, asked hop %.1f km, minimum angle %.3f deg'
          % (name, number(job, 'JOB_FREQ'), km, number(job, 'JOB_AMIND')))
    print('rays %d, rows %d, looks %d, pairs %d'
          % (len(rays), *(count(answer, 'ANSWER_' + word) for word in ('ROWS', 'LOOKS', 'PAIRS'))))
    for slot in rays:
        print('slot %d: %.3f deg, layer %s, virtual height %.1f km, true height %.1f km'
              % (slot + 1, number(answer, 'ANSWER_DELMOD', slot), LAYERS[count(answer, 'ANSWER_ITMOD', slot)],
                 number(answer, 'ANSWER_HPMOD', slot), number(answer, 'ANSWER_HTMOD', slot)))


def main():
    if len(sys.argv) != 2:
        print('rays.py takes JOB', file=sys.stderr)
        return 64
    name = sys.argv[1]
    try:
        with open(name, 'rb') as file:
            job = file.read(RAY['JOB_BYTES'] + 1)
    except OSError as error:
        print('%s: %s' % (name, error.strerror), file=sys.stderr)
        return 66
    refusal, answer = solve(load(LIBRARY), job)
    if refusal:
        print('%s: refused, limit %d: %s' % (name, refusal, SENTENCES[refusal]), file=sys.stderr)
        return refusal
    print_answer(name, job, answer)
    return 0


if __name__ == '__main__':
    sys.exit(main())
