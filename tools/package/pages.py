#!/usr/bin/env python3
"""Puts pages into a package: of a link to a file that isn't there only its text stays, and of one
to a manual page the command that shows it.
usage: pages.py FOLDER       its pages, *.md, at any depth, once all else is there too"""
import os
import re
import sys

# A link or a picture: its text, and where it goes.
LINK = re.compile(r'(!?)\[([^\]]*)\]\(([^)\s#]+)(#[^)\s]*)?\)')

# A manual page of the checkout.
MANUAL = re.compile(r'(?:.*/)?(receiver|pack)\.1')


def packaged(text, folder):
    """A page of a folder as the package has it."""
    def link(found):
        _, said, to, _ = found.groups()
        manual = MANUAL.fullmatch(to)
        if manual:
            return f'`man seldomplough-{manual[1]}`'
        is_there = '://' in to or os.path.exists(os.path.join(folder, to))
        return found[0] if is_there else said

    return LINK.sub(link, text)


def main():
    for at, _, files in os.walk(sys.argv[1]):
        for name in files:
            if name.endswith('.md'):
                path = os.path.join(at, name)
                with open(path, encoding='utf-8') as file:
                    text = packaged(file.read(), at)
                with open(path, 'w', encoding='utf-8') as file:
                    file.write(text)
    return 0


if __name__ == '__main__':
    sys.exit(main())
