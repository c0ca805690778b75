"""The policy of the page: from a folder, and from a server, it connects to nothing, and all that it
has to do works."""
from __future__ import annotations

import os
import re
import time

from built import read
from hanging import HANGS
from page_server import server_of

from .cases import Row, Rows, expected
from .elsewhere import PLACES, outcomes, serving
from .page import PAUSE

# What no policy refuses. Nothing of it is in the page.
NEVER = ('RTCPeerConnection', 'preconnect', 'dns-prefetch', 'window.open', 'location')


def refuses(rows: Rows, place: str, where: str) -> None:
    """Sees that all that is tried is refused, and nothing comes elsewhere."""
    what, refused, asked = outcomes(rows.page, place)
    is_right = (refused, asked) == (what, set())
    rows.tell(f'what is tried {place} {where}', is_right, (refused, asked))


def leave(rows: Rows) -> None:
    """Opens the page anew. Of what was tried the console has refusals alone."""
    rows.page.open()
    rows.page.value('new Promise((act) => setTimeout(act, 500))')
    console = rows.page.browser.console
    console[:] = [it for it in console if 'Content Security Policy' not in it]


def saves(rows: Rows, where: str) -> None:
    """Sees that lines are saved as a file."""
    page, folder = rows.page, os.path.join(rows.folder, f'saved {where}')
    ask, path = page.browser.ask_browser, os.path.join(folder, 'run.lines')
    ask('Browser.setDownloadBehavior', behavior='allow', downloadPath=folder)
    page.click('save')
    text, came, end = expected('three_satellites').encode(), b'', time.monotonic() + HANGS
    while came != text and time.monotonic() < end:
        time.sleep(PAUSE)
        came = read(path) if os.path.exists(path) else b''
    rows.tell(f'the lines that are saved {where}', came == text, len(came))
    ask('Browser.setDownloadBehavior', behavior='deny')


def whole(rows: Rows, where: str) -> None:
    """Sees that a page runs an example, saves its lines, and connects to nothing."""
    rows.runs_example('three_satellites', f'opening {where}')
    saves(rows, where)
    for place in PLACES:
        refuses(rows, place, where)


def from_folder(rows: Rows) -> None:
    """The page from a folder."""
    rows.page.open()
    whole(rows, 'from a folder')
    text = read(os.path.join(rows.page.folder, 'index.html')).decode()
    found = [it for it in NEVER if it in text]
    rows.tell('what no policy refuses', not found, found)
    leave(rows)


def from_server(rows: Rows) -> None:
    """The page from a server; and by the policy that the server sends alone, without its own."""
    with serving(server_of(rows.page.folder, 0)) as address:
        rows.page.open(address=address)
        whole(rows, 'from a server')
    folder = os.path.join(rows.folder, 'bare')
    os.mkdir(folder)
    text = read(os.path.join(rows.page.folder, 'index.html')).decode()
    bare = re.sub('<meta http-equiv="Content-Security-Policy"[^>]*>', '', text)
    with open(os.path.join(folder, 'index.html'), 'w', encoding='utf-8') as file:
        file.write(bare)
    with serving(server_of(folder, 0)) as address:
        rows.page.open(address=address)
        refuses(rows, 'in the page', 'by the policy of the server')
    leave(rows)


def without(rows: Rows) -> None:
    """Without a policy all that is tried comes elsewhere, so that a refusal is the policy's."""
    page = rows.page
    page.browser.call('Page.setBypassCSP', enabled=True)
    page.open()
    rows.runs_example('three_satellites', 'opening without a policy')
    for place in PLACES:
        what, refused, asked = outcomes(page, place)
        is_right = (refused, asked) == (set(), what)
        rows.tell(f'what is tried {place} without a policy', is_right, (refused, asked))
    page.browser.call('Page.setBypassCSP', enabled=False)
    leave(rows)
    # What came there was nothing that they could take.
    page.browser.console.clear()


ROWS: tuple[Row, ...] = (from_folder, from_server, without)
