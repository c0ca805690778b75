"""The page in a browser, as a reader has it: clicks, fields, files, and what it says."""
from __future__ import annotations

import json
import os
import time
from typing import Any

from hanging import HANGS

from .browser import Browser, Hangs, Refuses

# Seconds between two looks at the page.
PAUSE = 0.05

# What is put before the page's script: the text that is saved is kept, the bank that is compiled,
# and the greatest memory that a worker reports.
WATCH = """
globalThis.kept = { text: null, bank: null, memory: 0 };
const compile = WebAssembly.compile;
WebAssembly.compile = (it) => {
  kept.bank = it;
  return compile.call(WebAssembly, it);
};
const made = URL.createObjectURL;
URL.createObjectURL = (it) => {
  if (it.type === 'text/plain') kept.text = it;
  return made.call(URL, it);
};
globalThis.Worker = class extends Worker {
  constructor(...words) {
    super(...words);
    this.addEventListener('message', ({ data }) => {
      kept.memory = Math.max(kept.memory, data.memory ?? 0);
    });
  }
};
"""


class Page:
    """The page, opened from its folder."""

    def __init__(self, browser: Browser, folder: str) -> None:
        self.browser, self.folder = browser, folder
        browser.call('Page.addScriptToEvaluateOnNewDocument', source=WATCH)
        # What is saved is read here, and no file is written.
        browser.ask_browser('Browser.setDownloadBehavior', behavior='deny')
        self.size(1280, 800)
        self.open()

    def open(self, before: str = '', folder: str = '', address: str = '') -> None:
        """Opens the page anew, with a script before its own, or one of another folder, or at the
        address of a server."""
        call = self.browser.call
        script = call('Page.addScriptToEvaluateOnNewDocument', source=before)['identifier']
        # Nothing of the page that was open before has this.
        self.value('globalThis.isLeft = true')
        call('Page.navigate', url=address or f'file://{folder or self.folder}/index.html')
        self.wait('document.readyState === "complete" && !globalThis.isLeft && !!kept')
        call('Page.removeScriptToEvaluateOnNewDocument', identifier=script)

    def value(self, text: str) -> Any:
        """The value of an expression in the page."""
        came = self.browser.call(
            'Runtime.evaluate', expression=text, awaitPromise=True, returnByValue=True
        )
        if 'exceptionDetails' in came:
            raise Refuses(f'{text} in the page: {came["exceptionDetails"]}')
        return came['result'].get('value')

    def wait(self, text: str) -> None:
        """Waits until an expression holds."""
        end = time.monotonic() + HANGS
        while not self.value(text):
            if time.monotonic() > end:
                raise Hangs(f'{text} did not hold within {HANGS} s')
            time.sleep(PAUSE)

    def banks(self) -> Any:
        """The names of the banks whose bytes the page compiled last."""
        return self.value(
            """(() => {
          const text = Array.from(kept.bank ?? [], (it) => String.fromCharCode(it)).join('');
          const { banks } = SELDOMPLOUGH;
          return Object.keys(banks).filter((name) => atob(banks[name]) === text);
        })()"""
        )

    def size(self, width: int, height: int) -> None:
        """Gives the page a size in pixels."""
        self.browser.call(
            'Emulation.setDeviceMetricsOverride',
            width=width,
            height=height,
            deviceScaleFactor=1,
            mobile=False,
        )

    def text(self, name: str) -> str:
        """The text of an element."""
        return str(self.value(f'document.getElementById({json.dumps(name)}).textContent'))

    def click(self, name: str) -> None:
        """Clicks on an element by the mouse, where it can be seen and nothing lies over it."""
        place = self.value(
            f"""(() => {{
          const it = document.getElementById({json.dumps(name)});
          it.scrollIntoView({{ block: 'center', behavior: 'instant' }});
          const {{ left, top, width, height }} = it.getBoundingClientRect();
          const [x, y] = [left + width / 2, top + height / 2];
          return it.contains(document.elementFromPoint(x, y)) ? [x, y] : null;
        }})()"""
        )
        if place is None:
            raise Refuses(f'{name} can not be clicked')
        for kind in ('mousePressed', 'mouseReleased'):
            self.browser.call(
                'Input.dispatchMouseEvent',
                type=kind,
                x=place[0],
                y=place[1],
                button='left',
                clickCount=1,
            )

    def put(self, **fields: str | bool) -> None:
        """Puts values into fields, or chooses them. Those that fold away are shown first."""
        self.value('for (const it of document.querySelectorAll("details")) it.open = true')
        for name, given in fields.items():
            member = 'checked' if isinstance(given, bool) else 'value'
            self.value(
                f"""(() => {{
              const it = document.getElementById({json.dumps(name)});
              it.{member} = {json.dumps(given)};
              for (const what of ['input', 'change']) it.dispatchEvent(new Event(what));
            }})()"""
            )

    def choose(self, *paths: str) -> None:
        """Chooses files."""
        found = self.browser.call('Runtime.evaluate', expression='document.getElementById("file")')
        self.browser.call(
            'DOM.setFileInputFiles', files=list(paths), objectId=found['result']['objectId']
        )

    def drop(self, *paths: str) -> None:
        """Drops files onto the page."""
        what = {
            'items': [],
            'files': [os.path.realpath(it) for it in paths],
            'dragOperationsMask': 1,
        }
        for kind in ('dragEnter', 'dragOver', 'drop'):
            self.browser.call('Input.dispatchDragEvent', type=kind, x=400, y=300, data=what)

    def forget(self) -> None:
        """Clears what the page has said, so that what it says next is seen."""
        self.value(
            'document.getElementById("said").textContent = "";'
            'delete document.getElementById("far").dataset.done'
        )

    def done(self) -> str:
        """Waits until a run, or the opening of lines, is over. Gives the sentence about it."""
        self.wait('document.getElementById("far").dataset.done === "true"')
        return self.text('said')

    def said(self) -> str:
        """Waits for a sentence, and gives it."""
        self.wait('document.getElementById("said").textContent !== ""')
        return self.text('said')

    def saved(self) -> str:
        """The text of all lines, as the button saves it."""
        self.value('kept.text = null')
        self.click('save')
        self.wait('kept.text !== null')
        return str(self.value('kept.text.text()'))
