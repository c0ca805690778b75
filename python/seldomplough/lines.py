"""The one reader of printed lines. It streams: its memory doesn't grow with its input.

    for line in read(source):
        if isinstance(line, StateTrack):
            print(float(line.seconds(2046000)), float(line.doppler_hz))

A line that the receiver can't print is a failure with its number. A last line without its line feed
was cut: it is said and left out."""

from __future__ import annotations

from typing import Callable, Dict, Iterable, Iterator, Mapping, Protocol, Tuple, Type, Union
from typing import runtime_checkable

from seldomplough import files
from seldomplough.bases import Exact, Line, Raw, SlotLine, text_of
from seldomplough.events import Acq, Bits, Count, Gap, Lock, Lost, Sub, Unlock
from seldomplough.failures import Failure, shown
from seldomplough.messages import Als, Msg
from seldomplough.pages import Alm, Eph, Hlt, Page, Utc
from seldomplough.replies import End, Err, Ok, State, StateAcquire, StateHold, StateIdle, StateTrack
from seldomplough.satellites import Satellites

__all__ = [
    'Acq', 'Alm', 'Als', 'Bits', 'Count', 'End', 'Eph', 'Err', 'Exact', 'Gap', 'Hlt', 'KINDS',
    'Line', 'Lock', 'Lost', 'Msg', 'Ok', 'Page', 'Raw', 'Satellites', 'SlotLine', 'State',
    'StateAcquire', 'StateHold', 'StateIdle', 'StateTrack', 'Sub', 'Unlock', 'Utc', 'numbered',
    'parse', 'parse_record', 'read',
]  # fmt: skip

# The classes of each kind, by the word after the time. A state has one for each mode.
_CLASSES: Tuple[Type[Line], ...] = (
    Ok, Err, Count, Acq, Lock, Unlock, Lost, Bits, Gap, Sub, Eph, Alm, Utc, Hlt, Als, Msg,
    StateTrack, StateHold, StateAcquire, StateIdle, End,
)  # fmt: skip
KINDS: Dict[str, Tuple[Type[Line], ...]] = {}
for _class in _CLASSES:
    KINDS[_class.kind] = (*KINDS.get(_class.kind, ()), _class)

# Longer than any line that is printed, in bytes, and how many bytes are read at once.
LONGEST = 4096
PIECE = 1 << 16


@runtime_checkable
class Reader(Protocol):
    """A file of bytes, such as one that `open(name, 'rb')` gives."""

    def read1(self, size: int, /) -> bytes:
        """What has come so far, at most `size` bytes; none at the end."""


# What lines are read from: bytes, or pieces of text.
Input = Union[Reader, Iterable[str]]


def parse(text: str) -> Line:
    """The line of a text, without its line feed."""
    words = text.split(' ', 3)
    for kind in KINDS.get(words[2], ()) if len(words) > 2 else ():
        found = kind.pattern.fullmatch(text)
        if found:
            return kind.of_words(found.groups())
    raise Failure("isn't one that the receiver prints")


def parse_record(record: Mapping[str, object]) -> Line:
    """The line of the raw values of a record: its kind, client and time, and those by its names."""
    for kind in KINDS.get(str(record.get('kind')), ()):
        if kind.names[1:2] != ('mode',) or record.get('mode') == getattr(kind, 'mode', None):
            return parse(_text_of(kind, record))
    raise Failure("has no kind of the receiver's lines")


def _text_of(kind: Type[Line], record: Mapping[str, object]) -> str:
    try:
        return text_of(kind, record)
    except KeyError as why:
        raise Failure(f'lacks {why.args[0]}') from why
    except (TypeError, ValueError) as why:
        raise Failure('has a value of another kind') from why


def numbered(
    source: Input, say: Callable[[str], None] = files.say, longest: int = LONGEST
) -> Iterator[Tuple[int, str]]:
    """The number of each line, from 1, and its text without its line feed.

    A last line without its line feed is said and left out. No line may be as long as `longest`."""
    number, rest = 1, ''
    for piece in _pieces(source):
        texts = (rest + piece).split('\n')
        rest = texts.pop()
        for text in texts:
            _check_length(number, text, longest)
            yield number, text
            number += 1
        _check_length(number, rest, longest)
    if rest:
        say(f'line {number}, the last one, is cut and was left out: {shown(rest)}')


def _check_length(number: int, text: str, longest: int) -> None:
    if len(text) >= longest:
        raise Failure(f'line {number} is longer than {longest - 1} bytes: {shown(text)}')


def _pieces(source: Input) -> Iterable[str]:
    """The text of a source as it comes. Bytes that aren't ASCII stay what no line has."""
    if not isinstance(source, Reader):
        return source
    reader = source
    return (it.decode('latin-1') for it in iter(lambda: reader.read1(PIECE), b''))


def read(source: Input, say: Callable[[str], None] = files.say) -> Iterator[Line]:
    """The printed lines of a source. `say` gets the text about a last line that was cut."""
    for number, text in numbered(source, say):
        try:
            line = parse(text)
        except Failure as why:
            raise Failure(f'line {number} {why.text}: {shown(text)}') from why
        yield line
