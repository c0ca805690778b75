"""Draws pictures by matplotlib, as PNG or as SVG. The same picture becomes the same bytes."""

from __future__ import annotations

import io
import warnings
from typing import Any

from seldomplough.curves import Curve, Picture
from seldomplough.failures import Failure

COLOURS = ('#1f5fa8', '#d9730d', '#2e8b57', '#8a4fa3', '#b03a48', '#4b8f8c', '#8c6d31', '#777777')
GREY, LIGHT, DARK = '#777777', '#dddddd', '#555555'
# The sizes of pictures in inches, and the dots of an inch in PNG.
WIDE, SQUARE = (7.6, 4.2), (5.2, 5.2)
DOTS = 150
# The names of curves beside each other, and how high a row of them is, in points.
NAMES_A_ROW, ROW = 5, 17

SETTINGS = {
    'font.family': 'DejaVu Sans',
    'font.size': 10,
    'axes.edgecolor': DARK,
    'axes.axisbelow': True,
    'grid.color': LIGHT,
    'svg.fonttype': 'none',
    'svg.hashsalt': 'seldomplough',
}


def matplotlib() -> Any:
    """The module matplotlib, or a failure that says how to get it."""
    try:
        import matplotlib as module
        import matplotlib.figure
    except ImportError as why:
        raise Failure(
            "it needs matplotlib: install Debian's python3-matplotlib, or `matplotlib` by pip"
        ) from why
    return module


def drawn(picture: Picture, form: str) -> bytes:
    """The bytes of a picture in a form, `png` or `svg`."""
    module = matplotlib()
    result = io.BytesIO()
    with module.rc_context(SETTINGS), warnings.catch_warnings():
        # A character that the font hasn't is drawn as a box.
        warnings.simplefilter('ignore')
        size = SQUARE if picture.is_plane else WIDE
        figure = module.figure.Figure(figsize=size, layout='constrained')
        _draw(figure.subplots(), picture)
        metadata = {'Date': None} if form == 'svg' else {}
        figure.savefig(result, format=form, dpi=DOTS, metadata=metadata)
    return result.getvalue()


def _draw(axes: Any, picture: Picture) -> None:
    for at, curve in enumerate(picture.curves):
        _draw_curve(axes, curve, COLOURS[at % len(COLOURS)], picture.is_joined)
    rows = -(-len(picture.curves) // NAMES_A_ROW)
    axes.set_title(_plain(picture.title), pad=ROW * rows + 10)
    axes.set_xlabel(_plain(picture.x_title))
    axes.set_ylabel(_plain(picture.y_title))
    axes.grid(True)
    for mark in picture.marks:
        axes.axvline(mark.x, color=GREY, linestyle='--', linewidth=1)
        place = (mark.x, 0.05)
        axes.annotate(
            _plain(mark.name),
            place,
            xycoords=axes.get_xaxis_transform(),
            xytext=(4, 0),
            textcoords='offset points',
            color=GREY,
        )
    if picture.from_zero:
        axes.set_ylim(bottom=0)
    if picture.is_plane:
        _centre(axes, picture)
    columns = min(len(picture.curves), NAMES_A_ROW)
    axes.legend(loc='lower center', bbox_to_anchor=(0.5, 1), ncol=columns, frameon=False)


def _draw_curve(axes: Any, curve: Curve, colour: str, is_joined: bool) -> None:
    line = '-' if is_joined else 'none'
    axes.plot(
        curve.xs,
        curve.ys,
        color=colour,
        label=_plain(curve.name),
        linestyle=line,
        marker='o',
        markersize=3,
        markeredgewidth=0,
        linewidth=1,
    )


def _centre(axes: Any, picture: Picture) -> None:
    """Puts 0 in the middle of both axes, and gives them one scale."""
    sizes = [abs(it) for curve in picture.curves for it in (*curve.xs, *curve.ys)]
    most = 1.05 * max(sizes, default=1) or 1
    axes.set_xlim(-most, most)
    axes.set_ylim(-most, most)
    axes.set_aspect('equal')


def _plain(text: str) -> str:
    """A text as matplotlib draws it as it is: a `$` would begin a formula."""
    return text.replace('$', r'\$')
