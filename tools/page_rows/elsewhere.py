"""What a page or its worker tries to reach elsewhere, and what came of it."""
from __future__ import annotations

import http.server
import json
import threading
import time
from collections.abc import Callable, Iterator
from contextlib import contextmanager
from urllib.parse import urlsplit

from hanging import HANGS

from .browser import Refuses
from .page import PAUSE, Page

# What a worker of the page tries, by names that are asked for. Each is a body with a place `at`.
IN_WORKER = {
    'fetch': 'fetch(at).catch(() => {});',
    'request': 'const it = new XMLHttpRequest(); it.open("GET", at); it.send();',
    'socket': 'new WebSocket(at.replace("http", "ws"));',
    'events': 'new EventSource(at);',
    'module': 'import(at).catch(() => {});',
    'scripts': 'try { importScripts(at); } catch {}',
}

# What the page tries. `put` makes an element there. The script `sum` claims to be one of the page.
IN_PAGE = {
    **{name: IN_WORKER[name] for name in ('fetch', 'request', 'socket', 'events', 'module')},
    'beacon': 'navigator.sendBeacon(at, "a");',
    'ping': 'put("a", { ping: at, href: "#" }).click();',
    'image': 'put("img", { src: at });',
    'media': 'put("video", { src: at });',
    'font': 'new FontFace("a", `url(${at})`).load().catch(() => {});',
    'style': 'put("link", { rel: "stylesheet", href: at });',
    'prefetch': 'put("link", { rel: "prefetch", href: at });',
    'script': 'put("script", { src: at });',
    'sum': 'put("script", { src: at, crossOrigin: "anonymous", integrity: SUM });',
    'frame': 'put("iframe", { src: at });',
    'form': 'put("iframe", { name: "a" }); put("form", { action: at, target: "a" }).submit();',
}

# What is put before them: what is refused is kept by its address, of which a frame's has no path.
BEFORE = """
globalThis.refused = [];
addEventListener('securitypolicyviolation', ({ blockedURI, effectiveDirective }) => {
  refused.push(effectiveDirective === 'frame-src' ? `${blockedURI}/frame` : blockedURI);
});
globalThis.put = (tag, members) => {
  const it = Object.assign(document.createElement(tag), members);
  document.body.append(it);
  return it;
};
globalThis.SUM = globalThis.document?.documentElement.innerHTML.match(/sha256-[^']+/)?.[0] ?? '';
"""


class Notes(http.server.BaseHTTPRequestHandler):
    """Notes what is asked for, and answers it."""

    server: Elsewhere

    def do_GET(self) -> None:
        self.server.asked.add(self.path)
        self.send_response(200)
        self.send_header('Access-Control-Allow-Origin', '*')
        self.send_header('Content-Length', '0')
        self.end_headers()

    do_POST = do_GET

    def log_message(self, format: str, *args: object) -> None:
        """Says nothing."""


class Elsewhere(http.server.ThreadingHTTPServer):
    """Another origin than the page's."""

    def __init__(self) -> None:
        super().__init__(('127.0.0.1', 0), Notes)
        self.asked: set[str] = set()


@contextmanager
def serving(server: http.server.HTTPServer) -> Iterator[str]:
    """The address of a server, which answers meanwhile."""
    threading.Thread(target=server.serve_forever).start()
    try:
        yield f'http://127.0.0.1:{server.server_port}/'
    finally:
        server.shutdown()
        server.server_close()


def try_in_page(page: Page, probes: str) -> str:
    """Tries probes in the page. Gives what names those that were refused there."""
    page.value(f'(() => {{ {probes} }})()')
    return 'refused'


def try_in_worker(page: Page, probes: str) -> str:
    """Tries probes in a worker of the page's own script, made as the page makes its own."""
    told = json.dumps(f'{probes} setInterval(() => postMessage({{ refused }}), 50);')
    page.value(
        f"""(() => {{
      globalThis.told = [];
      globalThis.own = new Worker(URL.createObjectURL(new Blob([SELDOMPLOUGH.worker, {told}])));
      own.onmessage = ({{ data }}) => {{ told = data.refused; }};
    }})()"""
    )
    return 'told'


# How probes are tried, and which.
PLACES: dict[str, tuple[Callable[[Page, str], str], dict[str, str]]] = {
    'in the page': (try_in_page, IN_PAGE),
    'in the worker': (try_in_worker, IN_WORKER),
}


def outcomes(page: Page, place: str) -> tuple[set[str], set[str], set[str]]:
    """Tries all there is for a place. Gives the names of it, of what was refused, and of what was
    asked for elsewhere."""
    act, what = PLACES[place]
    other, end = Elsewhere(), time.monotonic() + HANGS
    with serving(other) as address:
        probes = (f'{{ const at = "{address}{name}"; {text} }}' for name, text in what.items())
        refusals = act(page, '\n'.join([BEFORE, *probes]))
        while True:
            refused, asked = (
                {urlsplit(it).path.strip('/') for it in all_of}
                for all_of in (page.value(refusals), list(other.asked))
            )
            if refused | asked >= set(what):
                return set(what), refused, asked
            if time.monotonic() > end:
                raise Refuses(f'neither refused nor asked for: {set(what) - refused - asked}')
            time.sleep(PAUSE)
