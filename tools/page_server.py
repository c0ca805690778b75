"""The server of a built page: on this machine alone, and for those alone who name this machine, so
that no page of others reads it under a name of its own."""

from __future__ import annotations

import functools
import http.server
import os
import sys
from http import HTTPStatus
from typing import Any

from builders import Failed
from page_text import POLICY

ADDRESS = '127.0.0.1'
# What this machine may be called, before the port.
HOSTS = (ADDRESS, 'localhost', '[::1]')
# The port that browsers leave out.
USUAL = 80

# What is said with each answer. Each build is seen at once, and no page of others has this one in
# it.
HEADERS = {
    'Cache-Control': 'no-store',
    'Content-Security-Policy': f"{POLICY}; frame-ancestors 'none'",
    'Cross-Origin-Resource-Policy': 'same-origin',
    'Referrer-Policy': 'no-referrer',
    'X-Content-Type-Options': 'nosniff',
}


class Files(http.server.SimpleHTTPRequestHandler):
    """Serves the files of a folder, and says nothing of what is asked for."""

    server: Server
    directory: str

    def log_message(self, format: str, *args: object) -> None:
        """Says nothing."""

    def end_headers(self) -> None:
        for name, value in HEADERS.items():
            self.send_header(name, value)
        super().end_headers()

    def translate_path(self, path: str) -> str:
        """The path of a file: of a folder its page, so that no folder is listed."""
        found = super().translate_path(path)
        return os.path.join(found, 'index.html') if os.path.isdir(found) else found

    def is_inside(self) -> bool:
        """Whether what is asked for lies in the folder, where links lead too."""
        path = os.path.realpath(self.translate_path(self.path))
        return os.path.commonpath([path, self.directory]) == self.directory

    def send_head(self) -> Any:
        """Begins the answer, and gives the file that it has, if any."""
        if self.headers.get_all('Host') not in self.server.names:
            self.send_error(HTTPStatus.MISDIRECTED_REQUEST, 'This server has another name')
            return None
        try:
            if self.is_inside():
                return super().send_head()
        except ValueError:
            # No file can have such a path.
            pass
        self.send_error(HTTPStatus.NOT_FOUND)
        return None


class Server(http.server.ThreadingHTTPServer):
    """A server that has its port, and answers when it is told to."""

    def __init__(self, folder: str, port: int) -> None:
        """Takes a port, or any where that is 0, for a folder whose path has no link."""
        super().__init__((ADDRESS, port), functools.partial(Files, directory=folder))
        self.names = [[f'{it}:{self.server_port}'] for it in HOSTS]
        if self.server_port == USUAL:
            self.names += [[it] for it in HOSTS]

    def handle_error(self, request: Any, client_address: Any) -> None:
        """Says nothing of a reader who is gone."""
        if not isinstance(sys.exc_info()[1], ConnectionError):
            super().handle_error(request, client_address)


def server_of(folder: str, port: int) -> Server:
    """A server that has taken its port."""
    try:
        return Server(folder, port)
    except OSError as why:
        raise Failed(f'port {port}: {why.strerror}') from None
