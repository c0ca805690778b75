"""The options of the programs for a SigMF recording, from its metadata."""

from __future__ import annotations

import json
import math
from typing import Any, Dict, List, NamedTuple, NoReturn

from seldomplough.crystals import CARRIER
from seldomplough.failures import Failure, shown
from seldomplough.numbers import GREATEST_RATE, LEAST_RATE

# What pack calls the numbers of a core:datatype, after its first letter.
NUMBERS = {'u8': 'u8', 'i8': 'i8', 'i16_le': 'i16', 'i16_be': 'i16be', 'f32_le': 'f32'}
# More bytes than metadata has, and more digits than one of its numbers has.
LONGEST = 1 << 24
LONGEST_NUMBER = 30


class Options(NamedTuple):
    """The words of the options of `pack` and of `receiver`."""

    pack: List[str]
    receiver: List[str]


def options(metadata: bytes) -> Options:
    """The options for a recording with this metadata. Each part of a sample becomes one bit."""
    whole = _object(_parsed(metadata), 'the metadata')
    about = _object(_member(whole, 'global'), 'global')
    captures = _member(whole, 'captures')
    if not isinstance(captures, list) or not captures:
        raise Failure('captures is no list of captures')
    firsts = [_object(it, 'a capture') for it in captures]
    kind, packing = _kind(_member(about, 'core:datatype'))
    if about.get('core:num_channels', 1) != 1:
        raise Failure('core:num_channels is not 1')
    if any(it.get('core:header_bytes', 0) != 0 for it in firsts):
        raise Failure('core:header_bytes is not 0, and pack takes samples alone')
    rate = _hertz(about, 'core:sample_rate')
    frequency = _hertz(firsts[0], 'core:frequency')
    return Options(['--from', kind, '--to', packing], _receiver(rate, frequency, packing))


def _parsed(metadata: bytes) -> object:
    """The value of a text of JSON."""
    if len(metadata) > LONGEST:
        raise Failure(f'more than {LONGEST} bytes are no metadata')
    try:
        return json.loads(
            metadata.decode('utf-8'), parse_int=_integer, parse_constant=_refuse_constant
        )
    except RecursionError as why:
        raise Failure("it isn't JSON of metadata: it is too deep") from why
    except ValueError as why:
        raise Failure(f"it isn't JSON: {shown(str(why))}") from why


def _integer(text: str) -> int:
    """An integer of JSON. One with thousands of digits isn't taken."""
    if len(text) > LONGEST_NUMBER:
        raise ValueError(f'a number has {len(text)} digits')
    return int(text)


def _refuse_constant(text: str) -> NoReturn:
    raise ValueError(f'{text} is no number')


def _object(value: object, name: str) -> Dict[str, Any]:
    if not isinstance(value, dict):
        raise Failure(f'{name} is no object: is it the metadata of a SigMF recording?')
    return value


def _member(value: Dict[str, Any], name: str) -> object:
    if name not in value:
        raise Failure(f'there is no {name}')
    result: object = value[name]
    return result


def _kind(datatype: object) -> 'tuple[str, str]':
    """What pack calls numbers of a type, and the packing that they get."""
    text = datatype if isinstance(datatype, str) else json.dumps(datatype)
    number = NUMBERS.get(text[1:])
    if not isinstance(datatype, str) or text[:1] not in ('c', 'r') or number is None:
        raise Failure(f'core:datatype {shown(text)} is not one that pack reads')
    return (f'iq-{number}', 'iq1') if text[0] == 'c' else (number, 'real1')


def _hertz(value: Dict[str, Any], name: str) -> int:
    """A member that is a whole number of hertz."""
    number = _member(value, name)
    if isinstance(number, float) and math.isfinite(number) and number == int(number):
        return int(number)
    if isinstance(number, bool) or not isinstance(number, int):
        raise Failure(f'{name} is not a whole number of hertz')
    return number


def _receiver(rate: int, frequency: int, packing: str) -> List[str]:
    """The options of receiver."""
    if not LEAST_RATE <= rate <= GREATEST_RATE:
        text = shown(str(rate))
        raise Failure(f'core:sample_rate {text} is not {LEAST_RATE} to {GREATEST_RATE}')
    offset = CARRIER - frequency
    if 2 * abs(offset) > rate:
        text = shown(str(offset))
        raise Failure(f'1575.42 MHz is {text} Hz from core:frequency, more than half the rate')
    words = ['--rate', str(rate), '--offset', str(abs(offset))]
    return [*words, *['--minus'] * (offset < 0), '--format', packing]
