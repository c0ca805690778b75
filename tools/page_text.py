"""The page as one file, and the examples beside it. A browser takes no modules, no workers and no
other files from a folder, so all is in line: style, script, worker and WebAssembly."""

from __future__ import annotations

import base64
import glob
import hashlib
import json
import os
import re
from typing import TypedDict

import built
from builders import Failed, run
from built import TOP

PAGE = os.path.join(TOP, 'page')
EXAMPLES = os.path.join(TOP, 'examples')

# The examples that are chosen by a click: with the one of whose options each has, and its scripts.
CHOSEN = {
    'three_satellites': ('three_satellites', 'three_satellites.script'),
    'real_message': ('real_message', 'real_message.script'),
    'zero_if': ('zero_if', 'zero_if.script'),
    'crystal': ('crystal', 'crystal.script'),
    'all32': ('three_satellites', 'all32/search_?.script'),
}

# The number of each packing, as `page/worker_job.js` has it.
FORMATS = ('real1', 'real2', 'iq1', 'iq2')

# The slots of each client where no option says how many.
SHARE = 4

# How the page names its place for policies, its style and its script.
CHARSET = re.compile(r'<meta charset="utf-8">')
STYLE = re.compile(r'<link rel="stylesheet" href="style\.css" ?/?>')
SCRIPT = re.compile(r'<script\b[^>]*\bsrc="page\.js"[^>]*></script>')

# What the page may do, wherever it comes from: run what is in line, the bank, a worker of its own
# text, and the scripts of the examples beside it. All else has no source, and no connection either.
POLICY = (
    "default-src 'none'; connect-src 'none'; script-src 'unsafe-inline' 'wasm-unsafe-eval' 'self';"
    " style-src 'unsafe-inline'; img-src data:; worker-src blob:; form-action 'none';"
    " base-uri 'none'"
)
# And of what is in line only what has these sums. This is a policy of its own, and both hold: by a
# policy with sums a script that claims to have one of them is asked for from anywhere.
SUMS = "script-src {scripts} 'wasm-unsafe-eval' 'self'; style-src {styles}; worker-src blob:"

# What is in line in the page.
IN_LINE = re.compile(r'<(script|style)\b[^>]*>(.*?)</\1>', re.DOTALL)


class Example(TypedDict):
    """An example as the page has it."""

    name: str
    scripts: list[str]
    recording: str
    rate: int
    offset: int
    format: int
    shares: list[int]


def text_of(*path: str) -> str:
    """The text of a file."""
    data: bytes = built.read(os.path.join(*path))
    return data.decode('utf-8')


def example(name: str) -> Example:
    """An example by its files: options as the receiver takes them, and scripts."""
    options, scripts = CHOSEN[name]
    words = text_of(EXAMPLES, f'{options}.options').split()
    given = {word: words[k + 1] for k, word in enumerate(words[:-1])}
    offset = int(given.get('--offset', '0'))
    texts = [text_of(path) for path in sorted(glob.glob(os.path.join(EXAMPLES, scripts)))]
    return {
        'name': name,
        'scripts': texts,
        'recording': given['<'],
        'rate': int(given.get('--rate', '2046000')),
        'offset': -offset if '--minus' in words else offset,
        'format': FORMATS.index(given.get('--format', 'real1')),
        'shares': [SHARE] * len(texts),
    }


def coded(data: bytes) -> str:
    """Bytes as text of base64."""
    return base64.b64encode(data).decode()


def bundled(name: str, *options: str) -> str:
    """A file of the page with all that it imports, by esbuild."""
    esbuild = built.find('esbuild')
    if not esbuild:
        raise Failed('esbuild is missing: apt-get install esbuild')
    # Comments in what it writes name the files from this folder on.
    return str(
        run([esbuild, name, '--bundle', '--charset=utf8', '--log-level=error', *options], PAGE)
    )


def put(page: str, place: re.Pattern[str], text: str) -> str:
    """A page with a text in the place of the one tag that a pattern finds."""
    found = place.findall(page)
    if len(found) != 1:
        raise Failed(f'page/index.html has {len(found)} tags {place.pattern}, and not one')
    return place.sub(lambda _: text, page)


def sums_policy(page: str) -> str:
    """The policy that has the sums of all that is in line in a page."""
    sums: dict[str, list[str]] = {'script': [], 'style': []}
    for kind, text in IN_LINE.findall(page):
        sums[kind].append(f"'sha256-{coded(hashlib.sha256(text.encode()).digest())}'")
    return SUMS.format(scripts=' '.join(sums['script']), styles=' '.join(sums['style']))


def with_policies(page: str) -> str:
    """A page with its policies, before all that they are of."""
    tags = [
        f'\n<meta http-equiv="Content-Security-Policy" content="{policy}">'
        for policy in (POLICY, sums_policy(page))
    ]
    return put(page, CHARSET, '<meta charset="utf-8">' + ''.join(tags))


def page_text(banks: dict[str, bytes], revision: str, examples: list[Example]) -> str:
    """The page, whole."""
    given = {
        'banks': {name: coded(data) for name, data in banks.items()},
        'worker': bundled('worker.js', '--format=iife'),
        'revision': revision,
        'examples': examples,
    }
    # No text in it ends the script that it stands in.
    known = json.dumps(given, ensure_ascii=False).replace('<', '\\u003c')
    script = bundled('page.js', '--format=esm')
    page = put(text_of(PAGE, 'index.html'), STYLE, f'<style>\n{bundled("style.css")}</style>')
    # A module in line waits until all of the page is there.
    page = put(
        page,
        SCRIPT,
        f'<script>\nvar SELDOMPLOUGH = {known};\n</script>\n'
        f'<script type="module">\n{script}</script>',
    )
    return with_policies(page)


def files_of_page(banks: dict[str, bytes], revision: str) -> dict[str, str]:
    """The texts of all files, by their paths in the folder of the page."""
    examples = [example(name) for name in CHOSEN]
    files = {'index.html': page_text(banks, revision, examples)}
    for it in examples:
        data = coded(built.read(os.path.join(EXAMPLES, it['recording'])))
        files[f'examples/{it["name"]}.js'] = f'bring({json.dumps(it["name"])}, "{data}");\n'
    return files
