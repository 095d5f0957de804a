"""What the scripts that draw the pictures share: one font, one set of colours, the width of a text, and the parts of a picture.
Assumes nothing. A text's width is that of DejaVu Sans, which is wider than most fonts that stand in for sans-serif."""
import html
import pathlib
import sys

INK, GREY, LINE, PALE, PAPER = '#1f2433', '#555a6b', '#444a5c', '#d9dce3', '#ffffff'
STRIP, BLUE, DEEP_BLUE, GREEN, DEEP_GREEN, SAND, ROSE = '#f4f5f8', '#e3eefb', '#cfe2f7', '#e9f6e6', '#d6ecd0', '#fdf1dc', '#fbe4e1'
RED, ORANGE, STEEL, TEAL, NAVY = '#b3261e', '#b8741a', '#4a78a8', '#2f8f6b', '#143a66'
COLOURS = {INK, GREY, LINE, PALE, PAPER, STRIP, BLUE, DEEP_BLUE, GREEN, DEEP_GREEN, SAND, ROSE, RED, ORANGE, STEEL, TEAL, NAVY}
FONT = 'sans-serif'

# the widths of the characters from the blank to the tilde, in thousandths of the font's size
REGULAR = (
    318, 401, 460, 838, 636, 950, 780, 275, 390, 390, 500, 838, 318, 361, 318, 337, 636, 636, 636, 636, 636, 636, 636, 636, 636, 636, 337, 337, 838, 838, 838, 531,
    1000, 684, 686, 698, 770, 632, 575, 775, 752, 295, 295, 656, 557, 863, 748, 787, 603, 787, 695, 635, 611, 732, 684, 989, 685, 611, 685, 390, 337, 390, 838, 500,
    500, 613, 635, 550, 635, 615, 352, 635, 634, 278, 278, 579, 278, 974, 634, 612, 635, 635, 411, 521, 392, 634, 592, 818, 592, 592, 525, 636, 337, 636, 838)
BOLD = (
    348, 456, 521, 838, 696, 1002, 872, 306, 457, 457, 523, 838, 380, 415, 380, 365, 696, 696, 696, 696, 696, 696, 696, 696, 696, 696, 400, 400, 838, 838, 838, 580,
    1000, 774, 762, 734, 830, 683, 683, 821, 837, 372, 372, 775, 637, 995, 837, 850, 733, 850, 770, 720, 682, 812, 774, 1103, 771, 724, 725, 457, 365, 457, 838, 500,
    500, 675, 716, 593, 716, 678, 435, 716, 712, 343, 343, 665, 343, 1042, 712, 687, 716, 716, 493, 595, 478, 712, 652, 924, 645, 652, 582, 712, 365, 712, 838)
MONO = 602


def wide(words, size, bold=False, mono=False):
    """The width of a text; a character that the tables lack counts as the widest."""
    table = BOLD if bold else REGULAR
    return size / 1000 * sum(MONO if mono else table[ord(c) - 32] if 32 <= ord(c) < 127 else 1000 for c in words)


def wrapped(words, size, most, bold=False):
    """The words in lines that are at most so wide."""
    lines = ['']
    for word in words.split():
        longer = f'{lines[-1]} {word}'.strip()
        if lines[-1] and wide(longer, size, bold) > most:
            lines.append(word)
        else:
            lines[-1] = longer
    return lines


def head(width, height, title, desc, size=13):
    """The first lines of a picture: what it shows, in words for who cannot see it, and a white ground that stays in a dark page."""
    return [
        f'<svg xmlns="http://www.w3.org/2000/svg" viewBox="0 0 {width} {height}" width="{width}" height="{height}" role="img" '
        f'font-family="{FONT}" font-size="{size}" fill="{INK}">',
        f'<title>{html.escape(title, False)}</title>', f'<desc>{html.escape(desc, False)}</desc>',
        f'<rect width="{width}" height="{height}" fill="{PAPER}"/>']


def tip(name='a', fill=LINE):
    """The point of an arrow."""
    return f'<marker id="{name}" viewBox="0 0 10 10" refX="9" refY="5" markerWidth="8" markerHeight="8" orient="auto"><path d="M0 0 L10 5 L0 10 z" fill="{fill}"/></marker>'


def text(x, y, words, size=None, fill=None, bold=False, anchor=None, mono=False):
    extra = ''
    if anchor:
        extra += f' text-anchor="{anchor}"'
    if mono:
        extra += ' font-family="monospace"'
    if size:
        extra += f' font-size="{size}"'
    if bold:
        extra += ' font-weight="bold"'
    if fill:
        extra += f' fill="{fill}"'
    return f'<text x="{x:g}" y="{y:g}"{extra}>{html.escape(words, False)}</text>'


def note(x, y, words, most, size=12, fill=GREY, step=17):
    """A paragraph in lines that are at most so wide, as one text; with it, where the next line would stand."""
    lines = wrapped(words, size, most)
    spans = ' '.join(f'<tspan x="{x:g}" y="{y + step * n:g}">{html.escape(line, False)}</tspan>' for n, line in enumerate(lines))
    return f'<text font-size="{size}" fill="{fill}">{spans}</text>', y + step * len(lines)


def box(x, y, width, height, fill, round_by=6, stroke=LINE, more=''):
    return f'<rect x="{x:g}" y="{y:g}" width="{width:g}" height="{height:g}" rx="{round_by}" fill="{fill}" stroke="{stroke}" stroke-width="1.2"{more}/>'


def arrow(points, name='a', stroke=LINE, more=''):
    told = ' '.join(f'{x:g},{y:g}' for x, y in points)
    return f'<polyline points="{told}" fill="none" stroke="{stroke}" stroke-width="1.3"{more} marker-end="url(#{name})"/>'


def serve(picture, drawn, usage, **ways):
    """Writes a picture of docs/, or compares it with what is drawn, or does what another word of the command line names."""
    path = pathlib.Path(__file__).resolve().parent / picture
    script = pathlib.Path(sys.argv[0]).name
    if sys.argv[1:] == ['write']:
        path.write_text(drawn())
    elif sys.argv[1:] == ['check']:
        if not path.exists() or path.read_text() != drawn():
            sys.exit(f'docs/{picture} is not what docs/{script} draws')
        print(f'{picture}: as drawn')
    elif len(sys.argv) > 1 and sys.argv[1] in ways:
        ways[sys.argv[1]](*sys.argv[2:])
    else:
        sys.exit(usage)
