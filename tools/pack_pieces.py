"""Recordings that `pack` gets in pieces: a packet of a socket is what one read gives."""
import random
import socket
import struct
import subprocess
import threading

from pack_reference import KINDS, NUMBERS, kind_of, packed, refusal
from runs_rows.cases import cut, feed

# The most bytes of a read.
MOST_PIECE = 65536
# Centres and thresholds that all signs and sizes come of. Values of few bits have 0 and 2.
AMID = {'u8': ('127.5', '42.5'), 'i8': ('-4.5', '43'), 'i16': ('500', '10923'),
        'i16be': ('500', '10923')}
# Bytes drawn by chance are whole numbers of any of these kinds, but not all are floats.
WHOLE = [kind for kind in KINDS if kind != 'f32']
UNREAD = ["pack: standard input couldn't be read"]
NO_NUMBER = ['pack: standard input has a float that is no number']


def outcome(process):
    """The status of a run, its standard output, and the lines of its standard error."""
    written, said = process.communicate()
    return process.returncode, written, said.decode(errors='replace').splitlines()


def begun(program, words, reads):
    """A run that reads from a socket."""
    return subprocess.Popen([program, *words], stdin=reads, stdout=subprocess.PIPE,
                            stderr=subprocess.PIPE)


def in_pieces(program, words, pieces):
    """The outcome of a run that gets one piece with each read."""
    reads, gives = socket.socketpair(socket.AF_UNIX, socket.SOCK_SEQPACKET)
    with reads:
        process = begun(program, words, reads)
    threading.Thread(target=feed, args=(gives, pieces), daemon=True).start()
    return outcome(process)


def broken_off(program, words, data):
    """The outcome of a run whose second read fails: a socket that is closed with a byte that it
    hasn't read is reset, and then has no more."""
    reads, gives = socket.socketpair()
    with reads:
        reads.send(b'?')
        gives.send(data)
        gives.close()
        return outcome(begun(program, words, reads))


def choices():
    """Kinds, as they are and as pairs, and formats."""
    for kind in WHOLE:
        centre, threshold = AMID.get(kind, ('0', '2'))
        for name in kind, f'iq-{kind}':
            for to in 'real1', 'real2', 'iq1', 'iq2':
                asked = {'from': name, 'to': to, 'threshold': threshold, 'centre': centre}
                if not refusal(asked, False):
                    yield asked


def long_recording(asked, noise):
    """A recording, and what is packed of it. Where a byte has several values, it has the same
    12,800 bytes eight times, which are worked out once: they fill whole bytes."""
    if kind_of(asked)[0] in NUMBERS:
        return noise, packed(asked, noise)
    return noise[:12800] * 8, packed(asked, noise[:12800]) * 8


def rows(program):
    """Names, what came, and what has to come."""
    chance = random.Random(2)
    noise = bytes(chance.getrandbits(8) for _ in range(102400))
    for asked in choices():
        name = f'{asked["from"]} to {asked["to"]}'
        words = [word for option, value in asked.items() for word in (f'--{option}', value)]
        data, wanted = long_recording(asked, noise)
        came = in_pieces(program, words, cut(data, MOST_PIECE))
        yield f'a long recording of {name}', came[:2], (0, wanted)
        if kind_of(asked)[1] and asked['to'] == 'iq1':
            wanted = packed(asked, noise[:3001])
            for size in 1, 7, 64, 1000, MOST_PIECE:
                came = in_pieces(program, words, cut(noise[:3001], size))
                yield f'{name} by {size} bytes', came[:2], (0, wanted)
    # Infinity and the first byte of a float that is no number, and then its others.
    pieces = struct.pack('<Ib', 0x7f800000, 1), b'\x00\x80\xff'
    came = in_pieces(program, '--from f32 --to real1'.split(), pieces)
    yield 'a float in two pieces', came, (1, b'', NO_NUMBER)
    came = broken_off(program, '--from i8 --to real1'.split(), bytes(8))
    yield 'a second read that fails', came, (1, b'\x00', UNREAD)
