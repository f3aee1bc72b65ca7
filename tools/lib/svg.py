"""Pictures as SVG: texts, ticks, and the whole. Classes are for a page that has the picture in it, and sets other colours in the dark."""
import html


def escaped(words):
    """A text of whatever a file's name has: what can't be shown is no XML either."""
    return html.escape("".join(letter if letter.isprintable() else "\ufffd" for letter in str(words)))


def text(x, y, words, anchor="start", more=""):
    return f'<text x="{x:.1f}" y="{y:.1f}" text-anchor="{anchor}"{more}>{escaped(words)}</text>'


def line(x1, y1, x2, y2, more):
    return f'<line x1="{x1:.1f}" y1="{y1:.1f}" x2="{x2:.1f}" y2="{y2:.1f}" {more}/>'


def ticks(low, high, most):
    """Round numbers from low to high, as many as fit."""
    step = 1
    while (high - low) / step > most:
        step = step * 5 // 2 if str(step)[0] == "2" else step * 2
    return range(-(-low // step) * step, high + 1, step)


def whole(wide, tall, lines):
    """The text of a picture of so many pixels, which a page may scale."""
    size = f'width="{wide}" height="{tall}" viewBox="0 0 {wide} {tall}"'
    head = f'<svg xmlns="http://www.w3.org/2000/svg" {size} font-family="sans-serif" font-size="11">'
    return "\n".join([head, '<rect class="back" width="100%" height="100%" fill="white"/>', *filter(None, lines), "</svg>"]) + "\n"
