"""Draws the figures of bench/run: how many times as fast as the Rust, and the time for a byte as batches grow."""

import math
from xml.sax.saxutils import escape

from figures import BARS, BUILDS, GROWING, OPERATIONS

WIDTH = 980
LEFT = 250          # where the bars' axis begins
RIGHT = 910         # and ends
ROW = 30
BAR = 12
SHADES = {'found': '#9ecae1', 'inlined': '#2171b5'}
HUES = {'check': '#6a51a3', 'read': '#2171b5', 'write': '#d94801', 'is_canonical': '#238b45', 'copy': '#969696'}
FORMS = ('many small records', 'one large value')
PANEL = 300         # the height of a panel of growth


def shown_size(size):
    return f'{size >> 10} KiB' if size < 1 << 20 else f'{size >> 20} MiB'


def text(x, y, words, anchor='start', size=13, colour='#222', weight='normal'):
    return (f'<text x="{x:.1f}" y="{y:.1f}" text-anchor="{anchor}" font-size="{size}" fill="{colour}" '
            f'font-weight="{weight}">{escape(words)}</text>')


def line(x1, y1, x2, y2, colour='#ccc', width=1.0, dashes=''):
    return (f'<line x1="{x1:.1f}" y1="{y1:.1f}" x2="{x2:.1f}" y2="{y2:.1f}" stroke="{colour}" '
            f'stroke-width="{width}" stroke-dasharray="{dashes}"/>')


class Doubling:
    """An axis from the power of two below the numbers to the one above, between two places."""

    def __init__(self, numbers, start, end):
        self.low = math.floor(math.log2(min(numbers)))
        self.high = max(math.ceil(math.log2(max(numbers))), self.low + 1)
        self.start, self.end = start, end

    def place(self, number):
        return self.start + (math.log2(number) - self.low) / (self.high - self.low) * (self.end - self.start)

    def ticks(self):
        return [2.0 ** power for power in range(self.low, self.high + 1)]


class Even:
    """An axis from zero, in at most ten steps of 1, 2 or 5 times a power of ten, between two places."""

    def __init__(self, numbers, start, end):
        power = 10 ** math.floor(math.log10(max(numbers)) - 1)
        self.step = next(power * digit for digit in (1, 2, 5, 10) if max(numbers) <= 10 * power * digit)
        self.steps = math.ceil(max(numbers) / self.step)
        self.start, self.end = start, end

    def place(self, number):
        return self.start + number / (self.step * self.steps) * (self.end - self.start)

    def ticks(self):
        return [self.step * number for number in range(self.steps + 1)]


def ratio_bars(figures, axis, operation, case, top):
    """A case's bars, one for each build, each with its ratio; and the mark of what is demanded, if it is."""
    parts = []
    for at, build in enumerate(figures.builds()):
        ratio = figures.ratio(operation, case, build)
        left, right = sorted((axis.place(1), axis.place(ratio)))
        y = top + at * BAR
        parts.append(f'<rect x="{left:.1f}" y="{y}" width="{right - left:.1f}" height="{BAR - 1}" '
                     f'fill="{SHADES[build]}"/>')
        parts.append(text(right + 5, y + 10, f'{ratio:.1f}' if ratio >= 1 else f'{ratio:.2f}', size=11))
    least = BARS.get((operation, case))
    if least:
        x = axis.place(least)
        parts.append(line(x, top - 4, x, top + 2 * BAR + 3, '#cb181d', 3))
    return parts


def ratios(figures, top):
    """The upper part, and where it ends."""
    shown = [(operation, [case for case, _ in figures.cases('time') if figures.ratios(operation, case, 'found')])
             for operation in OPERATIONS]
    numbers = [figures.ratio(operation, case, build)
               for operation, cases in shown for case in cases for build in figures.builds()]
    axis = Doubling([0.9, *numbers], LEFT, RIGHT)
    bottom = top + sum(ROW * (len(cases) + 1) for _, cases in shown)
    parts = []
    for tick in axis.ticks():
        x = axis.place(tick)
        parts.append(line(x, top, x, bottom, '#444' if tick == 1 else '#ddd'))
        parts.append(text(x, bottom + 17, f'{tick:g}', 'middle', 12))
    parts.append(text((LEFT + RIGHT) / 2, bottom + 37,
                      'time of the Rust divided by time of Oddrafisk (logarithmic; left of 1 the Rust is faster)',
                      'middle'))
    y = top
    for operation, cases in shown:
        parts.append(text(20, y + 20, OPERATIONS[operation], size=14, weight='bold'))
        for case in cases:
            y += ROW
            parts.append(text(LEFT - 10, y + 17, case, 'end'))
            parts += ratio_bars(figures, axis, operation, case, y + 2)
        y += ROW
    return parts, bottom + 45


def legend(figures, y):
    parts = []
    x = 20
    for build in figures.builds():
        parts.append(f'<rect x="{x}" y="{y - 10}" width="14" height="11" fill="{SHADES[build]}"/>')
        parts.append(text(x + 20, y, f'beside the Rust, {BUILDS[build]}'))
        x += 340
    parts.append(line(x + 5, y - 11, x + 5, y + 2, '#cb181d', 3))
    return [*parts, text(x + 15, y, 'the bar demanded')]


def growth_panel(form, curves, left, top):
    width, bottom = WIDTH / 2 - 170, top + PANEL
    size = Doubling([place for curve in curves.values() for place, _ in curve], left, left + width)
    value = Even([time for curve in curves.values() for _, time in curve], bottom, top)
    parts = [text(left, top - 14, form, size=14, weight='bold')]
    for tick in value.ticks():
        y = value.place(tick)
        parts += [line(left, y, left + width, y, '#ddd'), text(left - 6, y + 4, f'{tick:g}', 'end', 12)]
    for tick in size.ticks()[::6]:
        x = size.place(tick)
        parts += [line(x, top, x, bottom, '#ddd'), text(x, bottom + 17, shown_size(int(tick)), 'middle', 12)]
    parts.append(text(left + width / 2, bottom + 37, 'bytes of the batch (logarithmic)', 'middle'))
    for operation, curve in curves.items():
        points = ' '.join(f'{size.place(at):.1f},{value.place(time):.1f}' for at, time in curve)
        parts.append(f'<polyline points="{points}" fill="none" stroke="{HUES[operation]}" stroke-width="2"/>')
    return parts + curve_names(curves, value, left + width + 6)


def curve_names(curves, value, x):
    """Each at its curve's end, and apart from the next."""
    parts, lowest = [], -math.inf
    for operation, curve in sorted(curves.items(), key=lambda named: -named[1][-1][1]):
        lowest = max(value.place(curve[-1][1]) + 4, lowest + 14)
        parts.append(text(x, lowest, GROWING[operation], size=12, colour=HUES[operation]))
    return parts


def growth(figures, top):
    """The lower part, and where it ends."""
    parts = []
    for at, form in enumerate(FORMS):
        curves = {operation: figures.per_byte(form, operation) for operation in GROWING}
        parts += growth_panel(form, curves, 60 + at * WIDTH / 2, top)
    return parts, top + PANEL + 50


def drawn(figures):
    parts = [text(20, 30, 'How many times as fast as the Rust', size=18, weight='bold'), *legend(figures, 56)]
    upper, end = ratios(figures, 72)
    parts += [*upper, text(20, end + 35, 'Nanoseconds for a byte, as batches grow', size=18, weight='bold')]
    lower, end = growth(figures, end + 80)
    parts += lower
    return '\n'.join([f'<svg xmlns="http://www.w3.org/2000/svg" width="{WIDTH}" height="{end:.0f}" '
                      f'viewBox="0 0 {WIDTH} {end:.0f}" font-family="sans-serif">',
                      f'<rect width="{WIDTH}" height="{end:.0f}" fill="white"/>', *parts, '</svg>\n'])
