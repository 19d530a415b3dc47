#!/usr/bin/env python3
"""examples/agent.py [SESSION]: a session's answers through the shared library, as an agent in Python would ask for them.

The library is the one that GEKUMOSARI_LIBRARY names, else libgekumosari.so.0 of the source tree (`make` makes it) or of the system. A session is read
from the file, or from standard input; the answer goes to standard output, as `gekumosari dispatch` writes it."""
import ctypes
import os
import sys

LONGEST_TEXT = 65536
MOST_BYTES = 458808  # no answer is longer: see include/gekumosari.h


def library():
    """The entry gekumosari_session of the shared library, with its types."""
    built = os.path.join(os.path.dirname(os.path.abspath(__file__)), '..', 'target', 'lib', 'libgekumosari.so.0')
    path = os.environ.get('GEKUMOSARI_LIBRARY') or (built if os.path.exists(built) else 'libgekumosari.so.0')
    entry = ctypes.CDLL(path).gekumosari_session
    entry.argtypes = (ctypes.c_char_p, ctypes.c_size_t, ctypes.c_char_p, ctypes.c_size_t)
    entry.restype = ctypes.c_int64
    return entry


def answer(entry, text, room=MOST_BYTES):
    """The answer to a session's bytes, or None where it is longer than the room: -12."""
    out = ctypes.create_string_buffer(max(room, 1))
    length = entry(text, len(text), out, room)
    return None if length < 0 else out.raw[:length]


def offer(entry, plan, steps):
    """When the next job may start, as a pair, or the line that refuses it. The ask is not kept among the steps: it changes nothing."""
    last = answer(entry, plan + b''.join(steps) + b'ask=offer\n').splitlines()[-1]
    key, _, value = last.partition(b'=')
    return tuple(map(int, value.split(b','))) if key == b'offer' else last.decode()


def next_job(entry, plan, steps):
    """Window and job that the next offer is for, by a look ahead that is dropped again; None where there is no offer."""
    last = answer(entry, plan + b''.join(steps) + b'start=auto\n').splitlines()[-1]
    key, _, value = last.partition(b'=')
    return tuple(map(int, value.split(b',')[:2])) if key == b'started' else None


def main():
    with open(sys.argv[1], 'rb') if len(sys.argv) > 1 else sys.stdin.buffer as file:
        # One byte more than the longest text, so that a longer one is noticed.
        text = file.read(LONGEST_TEXT + 1)
    sys.stdout.buffer.write(answer(library(), text))
    sys.stdout.buffer.flush()


if __name__ == '__main__':
    main()
