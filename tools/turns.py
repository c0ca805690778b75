"""The turns of a text of definitions: each place that may be written wrongly, written otherwise.
Only what stands after the `=` of a definition is turned."""
import re
from typing import Iterable, Iterator, NamedTuple

TOKEN = re.compile(r'--[^\n]*|"[^"\n]*"|[()\[\]{};,]|[^\s()\[\]{};,"]+')
CLOSING = {'(': ')', '[': ']', '{': '}'}
KEYWORDS = {'let', 'in', 'if', 'then', 'else', 'elim', 'λ'}

# What no side of an equation reaches over.
PARTING = KEYWORDS | {'&&', '||', '=', ';', '|', '↦', ',', '∷', '++'}

# A word, and those that it is turned into.
OTHERS = {
    'nat_le': ['nat_lt'], 'nat_lt': ['nat_le'], '&&': ['||'], '||': ['&&'],
    '+': ['-'], '-': ['+'], '*': ['+'], '/': ['%'], '%': ['/'], '+ℤ': ['-ℤ'], '-ℤ': ['+ℤ'],
    'pos': ['negsuc'], 'negsuc': ['pos'], 'neg_ℤ': [''], 'not': [''], 'min': ['max'],
    'max': ['min'], 'int_min': ['int_max'], 'int_max': ['int_min'], 'true': ['false'],
    'false': ['true'], 'take': ['drop'], 'drop': ['take'], 'list_any': ['list_all'],
    'list_all': ['list_any'], 'None': ['Some 0'],
}

# Where the words stand that a text may lack.
HOMES = {'int_min': 'Int', 'int_max': 'Int', 'list_any': 'List', 'list_all': 'List'}

# Functions whose two arguments may be exchanged.
SYMMETRIC = {'min', 'max', 'int_min', 'int_max'}


class Turn(NamedTuple):
    """A turned definition: where, what stood there, what does now, and the whole text."""
    module: str
    name: str
    line: int
    was: str
    now: str
    text: str

    def __str__(self) -> str:
        return f'specs/{self.module}.antt:{self.line}: {self.was} -> {self.now}  ({self.name})'


class Word(NamedTuple):
    """A word of a text, and its place there."""
    text: str
    start: int
    end: int


Span = tuple[int, int]
Change = tuple[tuple[Span, str], ...]


def words_of(text: str, start: int, end: int) -> list[Word]:
    """The words of a part of a text."""
    found = [Word(it[0], it.start(), it.end()) for it in TOKEN.finditer(text, start, end)]
    return [it for it in found if not it.text.startswith('--')]


def clauses(text: str) -> Iterator[tuple[str, list[Word], int]]:
    """The clauses of the definitions of a text: the name, the words, and which of them is `=`."""
    starts = [it.start() for it in re.finditer(r'^(?=[^\s\]}-])', text, re.M)] + [len(text)]
    for start, end in zip(starts, starts[1:]):
        words = words_of(text, start, end)
        if words[0].text in ('use', 'abbrev', 'unfoldable', 'pub', 'unfolding'):
            continue
        equals = next(i for i, it in enumerate(words) if it.text == '=')
        yield words[0].text, words, equals


def closing(words: list[Word], first: int) -> int:
    """Where the bracket closes that opens at a word."""
    depth = 0
    for i in range(first, len(words)):
        depth += words[i].text in CLOSING
        depth -= words[i].text in CLOSING.values()
        if not depth:
            return i
    return len(words) - 1


def atom_end(words: list[Word], first: int) -> int | None:
    """The last word of the argument that begins at a word; nothing where none does."""
    word = words[first].text
    if word == 'record':
        last = closing(words, first + 1)
    elif word == '(':
        last = closing(words, first)
    elif word in KEYWORDS or not re.match(r'["\w◌]', word) or word.endswith('.'):
        return None
    else:
        return first
    after = words[last + 1:last + 2]
    is_field = after and after[0].start == words[last].end and re.match(r'\.\w', after[0].text)
    return last + 1 if is_field else last


def level(words: list[Word], first: int, end: int) -> Iterator[int]:
    """The words from one to before another that stand in no brackets there."""
    while first < end:
        yield first
        first = closing(words, first) + 1 if words[first].text in CLOSING else first + 1


def runs(words: list[Word]) -> Iterator[list[Span]]:
    """The functions with their arguments, each a first and a last word, in all brackets."""
    def within(first: int, end: int) -> Iterator[list[Span]]:
        run: list[Span] = []
        while first < end:
            last = atom_end(words, first)
            if last is None:
                yield run
                run = []
                if words[first].text == 'λ':
                    while not words[first].text.endswith('.'):
                        first += 1
            else:
                run.append((first, last))
            opened = first + (words[first].text == 'record')
            if words[opened].text in CLOSING:
                closed = closing(words, opened)
                yield from within(opened + 1, closed)
                first = max(closed, last or 0)
            first += 1
        yield run

    return within(0, len(words))


def parts(words: list[Word], first: int, end: int, mark: str) -> list[Span]:
    """What stands between the marks of one bracket, each by its first and its last word."""
    marks = [first - 1, *(i for i in level(words, first, end) if words[i].text == mark), end]
    return [(a + 1, b - 1) for a, b in zip(marks, marks[1:]) if b > a + 1]


def right_sides(words: list[Word], pieces: list[Span], sign: str) -> list[Span]:
    """What stands in each piece after a sign."""
    found = []
    for a, b in pieces:
        at = next((i for i in level(words, a, b + 1) if words[i].text == sign), None)
        if at is not None and at < b:
            found.append((at + 1, b))
    return found


def neighbours(words: list[Word]) -> Iterator[tuple[Span, Span]]:
    """All that is exchanged: two arguments, two fields' values, two elements, two arms."""
    rows = [run[1:] for run in runs(words) if run and words[run[0][0]].text not in SYMMETRIC]
    for i, word in enumerate([Word('(', 0, 0), *words]):
        if word.text in CLOSING:
            end = closing(words, i - 1) if i else len(words)
            if word.text == '{':
                rows.append(right_sides(words, parts(words, i, end, ';'), '='))
            if word.text == '[':
                rows.append(right_sides(words, parts(words, i, end, '|'), '↦'))
            if not any(words[k].text in KEYWORDS | {'=', ';', '|'} for k in level(words, i, end)):
                rows += [parts(words, i, end, '∷'), parts(words, i, end, '++')]
    seen = set()
    for row in rows:
        for pair in zip(row, row[1:]):
            if pair not in seen:
                seen.add(pair)
                yield pair


def single_changes(word: Word, fields: dict[str, list[str]]) -> Iterator[Change]:
    """What one word is turned into."""
    span, was = (word.start, word.end), word.text
    if re.fullmatch(r'0x[0-9a-f]+|\d+', was):
        number = int(was, 0)
        yield ((span, str(number + 1)),)
        if number:
            yield ((span, str(number - 1)),)
    if was.startswith('"') and len(was) > 2:
        yield ((span, was[:-2] + chr(ord(was[-2]) ^ 1) + '"'),)
    for other in OTHERS.get(was, []):
        yield ((span, other),)
    front, dot, field = was.rpartition('.')
    for other in fields.get(field, []) if dot else []:
        yield ((span, f'{front}.{other}'),)


def negations(words: list[Word]) -> Iterator[Change]:
    """Both branches of each `if` exchanged, by its condition."""
    for i, word in enumerate(words):
        if word.text == 'if':
            then = next(k for k in level(words, i, len(words)) if words[k].text == 'then')
            a, b = words[i + 1].start, words[then - 1].end
            yield (((a, a), 'not ('), ((b, b), ')'))


def bounds(text: str, words: list[Word]) -> Iterator[Change]:
    """Each equation of two numbers as a bound, the one way and the other."""
    for i, word in enumerate([Word('(', 0, 0), *words]):
        if word.text in CLOSING:
            end = closing(words, i - 1) if i else len(words)
            places = list(level(words, i, end))
            marks = [i - 1, *(k for k in places if words[k].text in PARTING), end]
            for k in (k for k in places if words[k].text == '=='):
                first = words[max(it for it in marks if it < k) + 1].start
                last = words[min(it for it in marks if it > k) - 1].end
                left, right = text[first:words[k - 1].end], text[words[k + 1].start:last]
                yield (((first, last), f'nat_le ({left}) ({right})'),)
                yield (((first, last), f'nat_le ({right}) ({left})'),)


def exchanged(text: str, a: Span, b: Span) -> Change:
    """Two parts of a text exchanged."""
    return ((a, text[b[0]:b[1]]), (b, text[a[0]:a[1]]))


def changes(text: str, fields: dict[str, list[str]]) -> Iterator[tuple[str, Change]]:
    """All changes of a text, with the definition's name."""
    before: tuple[str, Span] | None = None
    for name, clause, equals in clauses(text):
        words = clause[equals + 1:]
        body = words[0].start, words[-1].end
        for word in words:
            for change in single_changes(word, fields):
                yield name, change
        for change in [*negations(words), *bounds(text, words)]:
            yield name, change
        for (a, b), (c, d) in neighbours(words):
            yield name, exchanged(text, (words[a].start, words[b].end),
                                  (words[c].start, words[d].end))
        if before and before[0] == name:
            yield name, exchanged(text, before[1], body)
        before = name, body


def with_imports(text: str, words: str) -> str:
    """A text with imports of the words that it lacks."""
    heads = ' '.join(it for it in text.split('\n') if it.startswith('use '))
    known = set(re.split(r'[{},\s]+', heads))
    for word in TOKEN.findall(words):
        if word in OTHERS:
            name = word if re.match(r'[\w◌]', word) else f'◌{word}◌'
            if name not in known and f'\n{name} ' not in text:
                known.add(name)
                text = text.replace('\nuse ', f'\nuse Rattle.std.specs.{HOMES.get(name, "Prelude")}'
                                    f'.{{{name}}}\nuse ', 1)
    return text


def shown(text: str, change: Change) -> tuple[str, str]:
    """What a change takes away and what it puts there, each in one line."""
    first, last = change[0][0][0], change[-1][0][1]
    was, now = text[first:last], applied(text, change, first, last)
    return ' '.join(was.split()), ' '.join(now.split())


def applied(text: str, change: Change, first: int, last: int) -> str:
    """A part of a text after a change."""
    made, at = '', first
    for (start, end), new in change:
        made, at = made + text[at:start] + new, end
    return made + text[at:last]


def fields_of(texts: dict[str, str]) -> dict[str, list[str]]:
    """Each field of a record with the next one of the same type, in each record that has it."""
    found: dict[str, list[str]] = {}
    for text in texts.values():
        for body in re.findall(r'^pub record .*\n((?:  pub .*\n)+)', text, re.M):
            fields = re.findall(r'  pub (\w+) : (.*)', body)
            for i, (name, kind) in enumerate(fields):
                others = [it for it, its in fields[i + 1:] + fields[:i] if its == kind][:1]
                known = found.setdefault(name, [])
                known += [it for it in others if it not in known]
    return found


def turns_by(module: str, text: str, its: Iterable[tuple[str, Change]]) -> list[Turn]:
    """The turns of a module by changes of its text, each with the name of the definition."""
    found: dict[str, Turn] = {}
    for name, change in its:
        now = with_imports(applied(text, change, 0, len(text)), ' '.join(it for _, it in change))
        if now != text and now not in found:
            line = text.count('\n', 0, change[0][0][0]) + 1
            found[now] = Turn(module, name, line, *shown(text, change), now)
    return list(found.values())


def turns_of(module: str, texts: dict[str, str]) -> list[Turn]:
    """All turns of the words of a module."""
    return turns_by(module, texts[module], changes(texts[module], fields_of(texts)))
