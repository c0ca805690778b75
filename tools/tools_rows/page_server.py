"""Rows of the server of the page: who may ask it, for which files, by which paths."""
import os
import re
import signal
import socket
import subprocess
import sys

from hanging import HANGS
from tools_rows.commands import TOP, refused, run, write

# tools/page, with a page of its own in the place of one that is built.
PROGRAM = f'''import runpy, sys
sys.path.insert(0, {os.path.join(TOP, "tools")!r})
import page_text, page_wasm
page_wasm.banks_of_page = lambda say: say('builds') or {{}}
page_text.files_of_page = lambda banks, revision: {{
    'index.html': 'var SELDOMPLOUGH = 1;', 'examples/a.js': 'bring()',
    'great': 16 * 2 ** 20 * 'a'}}
runpy.run_path({os.path.join(TOP, "tools", "page")!r}, run_name='__main__')
'''

# A file outside of the folder, and what it has.
OUTSIDE, SECRET = 'outside', b'of another'

# Paths that no file of the folder has, and for which there is a line each time.
PATHS = (
    '/%00', '/a%00b', '/index.html%00', '/%2e%2e/outside', '/..%2foutside', '/../outside',
    '/examples/../../outside', '/%5c..%5coutside', '/%', '/%zz', '/%ff', '/%ed%b0%80', '//[',
    '//[/outside', '/' + 5000 * 'a', '/' + 70000 * 'a', '/' + 3000 * 'a/', '/examples',
    '/examples/', '/index.html/', 'http://[/', '*', 'outside',
)


def free_port():
    """A port that nobody has."""
    with socket.socket() as place:
        place.bind(('127.0.0.1', 0))
        return place.getsockname()[1]


class Served:
    """A page that tools/page serves while a row tries it."""

    def __init__(self, folder):
        self.folder, self.port = os.path.join(folder, 'page'), free_port()
        write(os.path.join(folder, OUTSIDE), SECRET.decode())

    def __enter__(self):
        words = [sys.executable, '-c', PROGRAM, self.folder, '--serve', str(self.port)]
        self.process = subprocess.Popen(words, stdout=subprocess.DEVNULL, stderr=subprocess.PIPE)
        for line in self.process.stderr:
            if b'http://' in line:
                return self
        raise OSError('it does not serve')

    def __exit__(self, *_):
        self.process.kill()
        self.process.communicate()

    def errors(self):
        """What it has said since it began, at its end."""
        self.process.send_signal(signal.SIGTERM)
        return self.process.communicate(timeout=HANGS)[1].decode()

    def asked(self, path='/', method='GET', hosts=None):
        """The status and all of an answer."""
        hosts = [f'127.0.0.1:{self.port}'] if hosts is None else hosts
        lines = [f'{method} {path} HTTP/1.1', *(f'Host: {it}' for it in hosts), '', '']
        with socket.create_connection(('127.0.0.1', self.port), HANGS) as place:
            place.sendall('\r\n'.join(lines).encode())
            came = b''.join(iter(lambda: place.recv(1 << 16), b''))
        status = re.match(rb'HTTP/1\.\d (\d+) ', came)
        return int(status[1]) if status else 0, came


def host_names(rows, folder):
    """It answers those who name this machine with its port. Others might have led a browser here by
    a name of their own."""
    with Served(folder) as served:
        port, faults = served.port, []
        for host in ('127.0.0.1', 'localhost', '[::1]'):
            status, came = served.asked(hosts=[f'{host}:{port}'])
            faults += [f'{host}: {status}'] * (status != 200 or b'SELDOMPLOUGH' not in came)
        for hosts in ([f'other.example:{port}'], ['127.0.0.1'], [f'127.0.0.1:{port - 1}'], [''],
                      [f'localhost.example:{port}'], [f'127.0.0.1:{port}@other.example'], [],
                      [f'127.0.0.1:{port}', 'other.example'], [f'127.0.0.2:{port}']):
            status, came = served.asked(hosts=hosts)
            faults += [f'{hosts}: {status}'] * (status != 421 or b'SELDOMPLOUGH' in came
                                                or b'another name' not in came)
    rows.say('hosts of the page', faults)


def links(rows, folder):
    """Links that lead out of the folder aren't followed, and others are."""
    with Served(folder) as served:
        os.symlink(os.path.join(folder, OUTSIDE), os.path.join(served.folder, 'file'))
        os.symlink(folder, os.path.join(served.folder, 'folder'))
        os.symlink('examples/a.js', os.path.join(served.folder, 'inside'))
        came = {it: served.asked(f'/{it}') for it in ('file', f'folder/{OUTSIDE}', 'inside')}
    faults = [it for it, (status, _) in came.items() if status != (200 if it == 'inside' else 404)]
    rows.say('links of the page', faults + [it for it in came if SECRET in came[it][1]])


def odd_paths(rows, folder):
    """Odd paths have an answer each, and no traceback. Folders aren't listed."""
    with Served(folder) as served:
        faults = []
        for path in PATHS:
            status, came = served.asked(path)
            faults += [f'{path[:40]}: {status}'] * (status not in (400, 404, 414) or SECRET in came)
        faults += [f'after them: {it}' for it in [served.asked()[0]] if it != 200]
        faults += [f'standard error: {it[-300:]}' for it in [served.errors()] if it]
    rows.say('odd paths of the page', faults)


def methods(rows, folder):
    """GET and HEAD alone are answered."""
    with Served(folder) as served:
        faults = []
        for method in ('POST', 'PUT', 'DELETE', 'OPTIONS', 'TRACE', 'PATCH', 'get'):
            status, came = served.asked(method=method)
            faults += [f'{method}: {status}'] * (status != 501 or b'SELDOMPLOUGH' in came)
        status, came = served.asked(method='HEAD')
        faults += [f'HEAD: {came}'] * (status != 200 or not came.endswith(b'\r\n\r\n'))
    rows.say('methods of the page', faults)


def headers(rows, folder):
    """Each answer has the policy, and what keeps other pages from it."""
    with Served(folder) as served:
        answers = [served.asked(it)[1].decode() for it in ('/', '/examples/a.js', '/none')]
    rows.say('headers of the page', [
        f'{line} in {came[:40]!r}' for came in answers for line in (
            "Content-Security-Policy: .*; connect-src 'none'; .*; frame-ancestors 'none'",
            'X-Content-Type-Options: nosniff', 'Referrer-Policy: no-referrer',
            'Cross-Origin-Resource-Policy: same-origin', 'Cache-Control: no-store')
        if not re.search(f'^{line}\r$', came, re.MULTILINE)])


def gone_readers(rows, folder):
    """A reader who is gone before the end is no traceback."""
    with Served(folder) as served:
        for _ in range(4):
            with socket.create_connection(('127.0.0.1', served.port), HANGS) as place:
                host = f'127.0.0.1:{served.port}'
                place.sendall(f'GET /great HTTP/1.1\r\nHost: {host}\r\n\r\n'.encode())
                place.recv(1)
        served.asked('/great')
        errors = served.errors()
    rows.say('readers of the page who are gone', [errors[-300:]] if errors else [])


def port_that_is_taken(rows, folder):
    """A port that is taken is said before anything is built or written."""
    with socket.socket() as taken:
        taken.bind(('127.0.0.1', 0))
        taken.listen()
        port = str(taken.getsockname()[1])
        outcome = run([sys.executable, '-c', PROGRAM, 'page', '--serve', port], folder)
    faults = refused(outcome, f'page: port {port}: Address already in use', 1)
    rows.say('a port that is taken', faults + [it for it in os.listdir(folder)])


ROWS = (host_names, links, odd_paths, methods, headers, gone_readers, port_that_is_taken)
