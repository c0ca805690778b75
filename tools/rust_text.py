"""A source of Rattle as a source of Rust: clauses and ghost code fall away, and what the kit has in
another way than Rust is put in Rust's."""
from __future__ import annotations

import re
from typing import Any


class Failed(Exception):
    """Sources that can't be written as Rust."""


# Texts, characters and comments, in which a brace is no brace; and the braces.
TOKEN = re.compile(r'"(?:\\.|[^"\\])*"|b?\'(?:\\.|[^\'\\])\'|//[^\n]*|[{}]', re.S)

# What only the prover reads, from the beginning of its first line to its first brace.
PROVED = re.compile(
    r'^(?:[ \t]*///.*\n)*[ \t]*ghost\b(?! use)[^{\n]*\{'
    r'|^[ \t]*(?:requires|ensures)\b[^{\n]*\{'
    r'|^impl(?:<[^>]*>)? Model for [^{]*\{', re.M)

# A law: a public function with clauses that does nothing.
LAW = re.compile(r'^(?=pub fn [^{;/]*\n(?: *(?:requires|ensures) .*\n(?: .*\n)*)+\{\}$)', re.M)

REWRITTEN = [(re.compile(pattern, re.M), new) for pattern, new in [
    (r'^[ \t]*(?:#!?\[tactic\(.*\)\]|ghost use [^;]*;|use std::marker::Model;)\n', ''),
    # A premise that the source states beside its contract. What rt proves and leaves out, a release
    # build checks where it has a message, and else a debug build alone.
    (r'\bprove!\(([^;"]*)\);', r'debug_assert!(\1);'),
    (r'^( *)prove!\(', r'\1assert!('),
    # A type that may be dropped says so.
    (r'(derive\([^)]*?)(?:, Drop\b|\bDrop, |\bDrop\b)', r'\1'),
    (r'^[ \t]*#\[derive\(\)\]\n', ''),
    # Where clauses fell away the brace ends the line, and a method without a body has none.
    (r'^((?! *(?://|where)).*[^\s,;{}])\n+ *\{$', r'\1 {'),
    (r'^([^\n;{}]*)\n+;', r'\1;'),
    (r'\n+\{\}$', ' {}'),
    # Tests and programs are given the right to touch the world; Rust's take it.
    (r'^([ \t]*fn \w+)\(rt: HostRuntime\)([^{]*\{)', r'\1()\2\n    let rt = HostRuntime;'),
    (r'\bexpect\((&?\$?rt, "[^"]*")\)', r'expect((\1).1)'),
    # The stable std has no vectors of numbers.
    (r'\bstd::simd::prelude\b', 'crate::kit::lanes'),
    (r'\bstd::ops::DerefSlice\b', 'core::ops::Deref'),
    # The trait of Rust's prelude that has this name stays in scope.
    (r'\.to_string\((?=[^)])', '.to_string_in('),
    (r'\bDerefSlice for\b', 'Deref for'),
    (r'\btype Elem = (\w+);', r'type Target = [\1];'),
    # A formatter says what it writes to.
    (r'\bfn fmt<W: Write>\((.*)Formatter<W>\)', r'fn fmt(\1Formatter)'),
    (r'^(use std::fmt::\{.*), Write\};', r'\1};'),
    # No part of Rust before 1.87.
    (r'\.cast_unsigned\(\)', ' as u64'),
    # What a later version may add to. In one package each match of the sources still has all cases.
    (r'^((?:#\[(?!non_).*\]\n)*pub enum (?:Answer|Event|LineRefusal|Refusal|Report|SlotState) '
     r'|#\[derive\(.*\bError\)\]\n(?:#\[(?!non_).*\]\n)*pub enum )', r'#[non_exhaustive]\n\1'),
    # No gaps where lines fell away.
    (r'\n{3,}', r'\n\n'), (r'\{\n\n', '{\n'), (r'\n\n(?=[ \t]*\})', '\n'), (r'\A\n+', ''),
]]

# What makes lanes as fast as by `rt`. An operation on 64 lanes of words counts as 64 to rustc until
# it makes vectors of them, which it does last: it leaves short functions as calls, and keeps in
# memory what they take by a reference. Each row has to match somewhere, and what is in FOUND too.
LANES = re.compile(r'\b[iu]\d+x\d+\b')
INLINED = '#[inline(always)]\n'
FAST: list[Any] = [(re.compile(pattern, re.M), new) for pattern, new in [
    (r'\n    let low = two_windows\(table, at\[0\], at\[1\]\);\n'
     r'    let high = two_windows\(table, at\[2\], at\[3\]\);\n'
     r'    low\.shuffle\(high, SIXTY_FOUR\)\n\}', '\n    u8x64::from_places(table, at)\n}'),
    (r'(?:^///.*\n)*^fn two_windows\([^{]*\{\n(?:    .*\n)*?    u8x16::from_slice\(&table\[first'
     r'\.\.\]\)\.shuffle\(u8x16::from_slice\(&table\[second\.\.\]\), THIRTY_TWO\)\n\}\n+', ''),
    (r'\b([iu]\d+x\d+)::from_slice\(&([\w.]+)\[([^\[\]]*)\.\.\]\)',
     lambda it: f'{it[1]}::from_slice_at({"&" * ("." in it[2])}{it[2]}, {it[3]})'),
    (r'^( *)#\[cold\]\n *#\[inline\(never\)\]\n(?=.*\(&(?:mut )?self\b)', r'\1' + INLINED),
]]
FUNCTION = re.compile(r'^( *)(?:pub(?:\([a-z]+\))? )?fn ((?:[^{;/\[]|\[[^\]]*\])*) \{$', re.M)
FOUND = ('a method that gives 64 bytes', 'a structure of lanes')
TOLD = re.compile(r'inline\((?:always|never)\)\]\n(?: *(?:///|#\[).*\n)*\Z')


def block_end(text: str, at: int) -> int:
    """The place after the block that begins at a place."""
    depth = 0
    for token in TOKEN.finditer(text, at):
        depth += {'{': 1, '}': -1}.get(token[0], 0)
        if depth == 0 and token[0] == '}':
            return token.end()
    raise Failed(f'a block has no end: {text[at:at + 60]!r}')


def stripped(text: str) -> str:
    """A source as Rust."""
    text, parts, at = LAW.sub('#[doc(hidden)]\n', text), [], 0
    while found := PROVED.search(text, at):
        parts.append(text[at:found.start()])
        at = block_end(text, found.end() - 1)
        # What proves an invariant stands behind it.
        while text.startswith(' by {', at):
            at = block_end(text, at)
        at += 'ghost' in found[0] and text[at] in ';,'
        at += 'ghost' in found[0] and text[at] == '\n'
    text = ''.join(parts) + text[at:]
    for pattern, new in REWRITTEN:
        text = pattern.sub(new, text)
    return text


def fast(sources: dict[str, str], seen: set[object]) -> dict[str, str]:
    """The sources of a crate that works on lanes. Adds to `seen` the rows of FAST that matched, and
    what is there of FOUND."""
    fields = re.findall(r'\bstruct (\w+) \{\n((?:    .*\n)*)', ''.join(sources.values()))
    types = {name for name, rows in fields if LANES.search(re.sub('//.*', '', rows))}

    def inlined(found: re.Match[str]) -> str:
        taken, _, given = found[2].partition('->')
        of_self = given if 'self' in taken else ''
        is_found = '[u8; 64]' in of_self, bool(types & {*re.findall(r'\w+', taken + of_self)})
        seen.update(name for name, it in zip(FOUND, is_found) if it)
        is_short = any(is_found) or LANES.search(found[2])
        told = TOLD.search(found.string, 0, found.start())
        return (found[1] + INLINED) * bool(is_short and not told) + found[0]

    for name, text in sources.items():
        for row, (pattern, new) in enumerate(FAST):
            text, count = pattern.subn(new, text)
            seen.update([row] * bool(count))
        sources[name] = FUNCTION.sub(inlined, text)
    return sources
