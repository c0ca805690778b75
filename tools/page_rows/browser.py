"""Chromium without a screen, driven by its DevTools over two pipes."""
from __future__ import annotations

import fcntl
import json
import os
import select
import time
from typing import Any

import children
from hanging import HANGS

# Chromium reads calls from the first of these descriptors, and writes to the second.
CALLS, ANSWERS = 3, 4

# Descriptors from here on are none of those two.
FREE = 10

# Root has no sandbox, and no page here is of others.
OPTIONS = (
    '--headless=new',
    '--no-sandbox',
    '--remote-debugging-pipe',
    '--no-first-run',
    '--disable-gpu',
    '--hide-scrollbars',
    '--disable-background-networking',
    '--disable-component-update',
    '--disable-extensions',
    '--mute-audio',
    'about:blank',
)


class Hangs(Exception):
    """A browser that doesn't answer, or is gone, or a page that doesn't come to be as it should."""


class Refuses(Exception):
    """A browser or a page that can't do what it is asked for."""


def pipe() -> tuple[int, int]:
    """The two ends of a pipe, both above the descriptors that Chromium takes."""
    ends = os.pipe()
    moved = tuple(fcntl.fcntl(it, fcntl.F_DUPFD_CLOEXEC, FREE) for it in ends)
    for it in ends:
        os.close(it)
    return moved[0], moved[1]


class Browser:
    """A browser with one page. What its console says is kept, of its workers too."""

    def __init__(self, path: str, folder: str) -> None:
        """Starts it, with all that it writes in a folder."""
        reads, self.calls = pipe()
        self.answers, writes = pipe()
        null = os.open(os.devnull, os.O_RDWR)
        # The first descriptors that are free may be those two, so they come last.
        actions = [(os.POSIX_SPAWN_DUP2, null, it) for it in range(3)]
        actions += [(os.POSIX_SPAWN_DUP2, reads, CALLS), (os.POSIX_SPAWN_DUP2, writes, ANSWERS)]
        home = {**os.environ, 'HOME': folder, 'TMPDIR': folder, 'XDG_RUNTIME_DIR': folder}
        words = [path, f'--user-data-dir={folder}/profile', *OPTIONS]
        self.pid = os.posix_spawn(path, words, home, file_actions=actions, setpgroup=0)
        children.RUNNING.add(self)
        for it in (reads, writes, null):
            os.close(it)
        self.number, self.rest = 0, b''
        self.console: list[str] = []
        self.session: str | None = None
        target = self.call('Target.createTarget', url='about:blank')['targetId']
        self.session = self.call('Target.attachToTarget', targetId=target, flatten=True)[
            'sessionId'
        ]
        for name in ('Page', 'Runtime', 'Log', 'DOM'):
            self.call(f'{name}.enable')
        self.call(
            'Target.setAutoAttach', autoAttach=True, waitForDebuggerOnStart=False, flatten=True
        )

    def end(self) -> None:
        """Ends it with all that it started."""
        children.end(self)
        os.waitpid(self.pid, 0)
        children.RUNNING.discard(self)
        os.close(self.calls)
        os.close(self.answers)

    def send(self, session: str | None, method: str, given: dict[str, Any]) -> int:
        """Sends a call, and gives its number."""
        self.number += 1
        message: dict[str, Any] = {'id': self.number, 'method': method, 'params': given}
        if session:
            message['sessionId'] = session
        data = json.dumps(message).encode() + b'\0'
        try:
            while data:
                data = data[os.write(self.calls, data) :]
        except OSError:
            raise Hangs('the browser is gone') from None
        return self.number

    def call(self, method: str, **given: Any) -> dict[str, Any]:
        """The answer to a call of the page, or of the browser while there is no page."""
        return self.answer(self.send(self.session, method, given), method)

    def ask_browser(self, method: str, **given: Any) -> dict[str, Any]:
        """The answer to a call of the browser."""
        return self.answer(self.send(None, method, given), method)

    def answer(self, number: int, method: str) -> dict[str, Any]:
        """The answer to the call of a number."""
        end = time.monotonic() + HANGS
        while True:
            message = self.message(end, method)
            if message.get('id') == number:
                if 'error' in message:
                    raise Refuses(f'{method}: {message["error"]["message"]}')
                result: dict[str, Any] = message['result']
                return result
            self.hear(message)

    def message(self, end: float, method: str) -> dict[str, Any]:
        """The next message."""
        while b'\0' not in self.rest:
            if not select.select([self.answers], [], [], max(0, end - time.monotonic()))[0]:
                raise Hangs(f'{method} had no answer within {HANGS} s')
            data = os.read(self.answers, 1 << 20)
            if not data:
                raise Hangs('the browser is gone')
            self.rest += data
        text, self.rest = self.rest.split(b'\0', 1)
        message: dict[str, Any] = json.loads(text)
        return message

    def hear(self, message: dict[str, Any]) -> None:
        """Keeps what the console says, and listens to a worker that began."""
        method, given = message.get('method'), message.get('params', {})
        if method == 'Target.attachedToTarget':
            self.send(given['sessionId'], 'Runtime.enable', {})
        elif method == 'Runtime.consoleAPICalled':
            words = [str(it.get('value', it.get('description'))) for it in given['args']]
            self.console.append(f'{given["type"]}: {" ".join(words)}')
        elif method == 'Runtime.exceptionThrown':
            details = given['exceptionDetails']
            self.console.append(details.get('exception', {}).get('description', details['text']))
        elif method == 'Log.entryAdded':
            self.console.append(given['entry']['text'])

    def busy(self) -> float:
        """The seconds of a processor that the renderers took so far."""
        found = self.ask_browser('SystemInfo.getProcessInfo')['processInfo']
        return sum(float(it['cpuTime']) for it in found if it['type'] == 'renderer')

    def resident(self) -> int:
        """The resident bytes of the greatest renderer."""
        found = [0]
        for it in self.ask_browser('SystemInfo.getProcessInfo')['processInfo']:
            if it['type'] == 'renderer':
                with open(f'/proc/{it["id"]}/statm', encoding='ascii') as file:
                    found.append(int(file.read().split()[1]) * os.sysconf('SC_PAGE_SIZE'))
        return max(found)
