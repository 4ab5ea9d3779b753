"""A picture of processor times: a group of bars for each shape, a bar for each program."""
import html

# Lengths in units of the picture: of the names at the left, of the longest bar, of a bar's height, between two groups, of a figure behind a bar.
NAMES, LONGEST, BAR, GAP, FIGURE = 130, 480, 11, 10, 70
HEAD = 34
# A colour for each program, the last for the last one; each can be seen on light and on dark.
COLOURS = ['#8c959f', '#bf8700', '#8250df', '#1a7f37', '#2f81f7']
STYLE = 'text{font:11px sans-serif;fill:#1f2328}rect.page{fill:#fff}@media (prefers-color-scheme:dark){text{fill:#e6edf3}rect.page{fill:#0d1117}}'


def text(x, y, what, end='start'):
    return '<text x="%g" y="%g" text-anchor="%s">%s</text>' % (x, y, end, html.escape(what))


def bar(x, y, width, colour):
    return '<rect x="%g" y="%g" width="%.1f" height="%g" fill="%s"/>' % (x, y, width, BAR - 1, colour)


def drawn(times, programs):
    """SVG of `times`, which has for each shape the seconds of the programs in their order. Each shape has its own scale; the seconds stand behind each bar."""
    colours = [*COLOURS[:len(programs) - 1], COLOURS[-1]]
    group = BAR * len(programs) + GAP
    width, height = NAMES + LONGEST + FIGURE, HEAD + group * len(times)
    parts = ['<title>Processor time in seconds</title>', '<style>%s</style>' % STYLE, '<rect class="page" width="100%" height="100%"/>']
    for at, (name, colour) in enumerate(zip(programs, colours)):
        x = NAMES + at * LONGEST / len(programs)
        parts += [bar(x, 10, BAR - 1, colour), text(x + BAR + 4, 19, name)]
    for row, (shape, seconds) in enumerate(times.items()):
        top = HEAD + row * group
        parts.append(text(NAMES - 8, top + (group - GAP) / 2 + 4, shape, 'end'))
        for at, (second, colour) in enumerate(zip(seconds, colours)):
            y, length = top + at * BAR, max(1, LONGEST * second / max(seconds))
            parts += [bar(NAMES, y, length, colour), text(NAMES + length + 5, y + BAR - 2, '%.3f s' % second)]
    return '<svg xmlns="http://www.w3.org/2000/svg" viewBox="0 0 %d %d" width="%d" height="%d">%s</svg>\n' % (width, height, width, height, '\n'.join(parts))
