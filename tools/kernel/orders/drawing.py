"""The picture of an order: a sequence diagram with a column a seat, and one for the words that they share."""
from typing import List, NamedTuple, Optional

from lib.svg import line, text, whole

COLOURS = ["#0072b2", "#d55e00", "#009e73", "#cc79a7", "#56b4e9", "#e69f00", "#7b3294", "#555555"]
WIDE, TOP, ROW = 355, 64, 19


class Arrow(NamedTuple):
    """A line of the picture."""

    seat: Optional[int]  # None: control
    words: str
    stores: bool  # a shared word changes
    marked: bool = False  # with a red ground
    set_then: Optional[str] = None  # what is set afterwards, where that changed
    is_start: bool = False  # a call begins, and no word is looked at
    left: Optional[int] = None  # how many steps may still come at most


GREY, BOLD = ' fill="#777"', ' font-weight="bold"'


def fill(colour):
    return f' fill="{colour}"'


def arrow_lines(arrow: Arrow, across: List[int], shared: int, y: int) -> List[str]:
    """The arrow of a step, from its seat to the shared words."""
    if arrow.seat is None:
        # it lies over the column of the shared words
        ground = f'<rect x="{shared - 230}" y="{y - 12}" width="460" height="{ROW - 2}" fill="white"/>'
        return [ground, text(shared, y, f"control {arrow.words}", "middle", BOLD)]
    x, colour = across[arrow.seat], COLOURS[arrow.seat]
    side = 1 if x < shared else -1
    if arrow.is_start:
        return [text(x, y, arrow.words, "start" if arrow.seat == 0 else "end", fill(colour) + BOLD)]
    near = shared - 8 * side
    dashes = "" if arrow.stores else ' stroke-dasharray="4 3"'
    lines = [line(x, y + 3, near, y + 3, f'stroke="{colour}"{dashes}')]
    lines.append(f'<path d="M{near - 6 * side},{y} L{near + 2 * side},{y + 3} L{near - 6 * side},{y + 6} z" fill="{colour}"/>')
    lines.append(text(x + 8 * side, y, arrow.words, "start" if side > 0 else "end", fill(colour)))
    if arrow.set_then is not None:
        lines.append(text(shared + 8 * side, y, arrow.set_then or "all clear", "start" if side > 0 else "end", GREY))
    return lines


def picture(title: str, names: List[str], arrows: List[Arrow], verdict: str, is_bad: bool, mark: str, most: int = 0) -> str:
    """The whole picture as SVG; `mark` says what a red ground is, if there is one; `most` is the greatest number of steps left, where it is shown."""
    # seat 0 is left of the shared words, the others right of them
    shared = 60 + WIDE
    across = [60] + [shared + WIDE * (1 + i) for i in range(len(names) - 1)]
    counted = max(across[-1], shared + 260) + 70
    right = counted + 120 * bool(most)
    bottom = TOP + ROW * len(arrows) + 14
    lines = [text(20, 20, title, more=BOLD), text(shared, 46, "shared words", "middle", BOLD)]
    lines += [text(counted, 46, "left", more=BOLD)] * bool(most)
    for i, x in enumerate(across):
        lines += [text(x, 46, names[i], "middle", fill(COLOURS[i]) + BOLD), line(x, 54, x, bottom, f'stroke="{COLOURS[i]}" stroke-opacity="0.35"')]
    lines.append(line(shared, 54, shared, bottom, 'stroke="#999" stroke-width="3"'))
    for number, arrow in enumerate(arrows):
        y = TOP + ROW * number + 12
        if arrow.marked:
            lines.append(f'<rect x="0" y="{y - 13}" width="{right}" height="{ROW}" fill="#fde0dd"/>')
        if most and arrow.left is not None:
            lines.append(f'<rect x="{counted}" y="{y - 7}" width="{round(80 * arrow.left / most)}" height="9" fill="#bbb"/>')
            lines.append(text(counted + 84, y, arrow.left, more=GREY))
        lines += arrow_lines(arrow, across, shared, y)
    lines.append(text(20, bottom + 20, verdict, more=fill("#cc0000" if is_bad else "#222") + BOLD))
    legend = "a whole line changes a shared word, a dashed one only looks; grey: what is set afterwards" + (f"; red: {mark}" if mark else "")
    lines += [text(20, bottom + 38, legend, more=GREY)]
    lines += [text(20, bottom + 54, "left: how many steps may still come at most", more=GREY)] * bool(most)
    return whole(right, bottom + 50 + 16 * bool(most), lines)
