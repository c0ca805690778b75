"""All kinds of inputs, by what their definitions describe."""
from . import (almanacs, banks, bits, cells, clients, commands, edges, entries, events, fields,
               found, frames, joints, lines, lives, loops, pages, pieces, runs, scripts, searches,
               segments, seldom, sets, signal, slots, streams, tasks, texts, totals, windows, words)
from .registry import KINDS, Kind

__all__ = ['KINDS', 'Kind', 'almanacs', 'banks', 'bits', 'cells', 'clients', 'commands', 'edges',
           'entries', 'events', 'fields', 'found', 'frames', 'joints', 'lines', 'lives', 'loops',
           'pages', 'pieces', 'runs', 'scripts', 'searches', 'segments', 'seldom', 'sets',
           'signal', 'slots', 'streams', 'tasks', 'texts', 'totals', 'windows', 'words']
