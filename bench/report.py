#!/usr/bin/env python3
"""Prints the tables of what bench/run has measured, fills those of the document with them and draws the picture:

    bench/report.py RESULTS DOCUMENT PICTURE

RESULTS is a folder with figures.tsv and machine.tsv. In DOCUMENT a table stands between <!-- NAME --> and <!-- end -->.
Without figures of the Rust, DOCUMENT and PICTURE are left as they are.
"""

import pathlib
import re
import statistics
import sys

import picture
from figures import BARS, BUILDS, GROWING, OPERATIONS, OURS, RUST, USERS, Figures

NOTHING = '–'

# From this size on, what each batch costs beside its bytes hardly counts.
SETTLED = 16 << 10


def table(head, rows):
    """A table in Markdown, its columns padded so that it can be read as it is."""
    lines = [[str(cell) for cell in line] for line in [head, *rows]]
    widths = [max(map(len, column)) for column in zip(*lines)]
    lines.insert(1, ['-' * widths[0]] + ['-' * (width - 1) + ':' for width in widths[1:]])
    padded = [[line[0].ljust(widths[0])] + [cell.rjust(width) for cell, width in zip(line[1:], widths[1:])]
              for line in lines]
    return '\n'.join('| ' + ' | '.join(line) + ' |' for line in padded)


def shown_time(nanoseconds):
    if nanoseconds is None:
        return NOTHING
    unit, scale = next((u, s) for u, s in [('ns', 1), ('µs', 1e3), ('ms', 1e6)] if nanoseconds < 1000 * s or s == 1e6)
    return f'{nanoseconds / scale:#.3g}'.rstrip('.') + f' {unit}'


def shown_ratio(ratio):
    return NOTHING if ratio is None else f'{ratio:.2f}' if ratio < 10 else f'{ratio:.0f}'


def shown_count(count):
    return NOTHING if count is None else f'{count:,.0f}'


def machine(figures):
    passes = max(int(row.pass_number) for row in figures.rows)
    return table(['', 'this run'], [*figures.machine, ['passes', passes]])


def bars(figures):
    head = ['bar', 'at least', *(f'{BUILDS[build]}, lowest to highest pass' for build in figures.builds()), '']
    rows = []
    for (operation, case), least in BARS.items():
        row, met = [f'{OPERATIONS[operation]}, {case}', least], True
        for build in figures.builds():
            ratios = figures.ratios(operation, case, build)
            ratio = figures.ratio(operation, case, build)
            row.append(f'{shown_ratio(ratio)} ({shown_ratio(min(ratios))} to {shown_ratio(max(ratios))})')
            met = met and ratio >= least
        rows.append([*row, 'met' if met else 'MISSED'])
    return table(head, rows)


def users(figures):
    rows = []
    for operation, (theirs, plain, most) in USERS.items():
        times = [shown_time(figures.median(part='users', operation=operation, side=side)) for side in (plain, theirs)]
        ratios = figures.times_as_long(operation)
        ratio = statistics.median(ratios)
        shown = f'{shown_ratio(ratio)} ({shown_ratio(min(ratios))} to {shown_ratio(max(ratios))})'
        rows.append([f'{operation}: {theirs} by {plain}', *times, shown, most, 'met' if ratio <= most else 'MISSED'])
    return table(['', 'measured by', 'users call', 'times as long, lowest to highest pass', 'at most', ''], rows)


def compared(figures, operation):
    head = ['', 'bytes', 'Oddrafisk']
    for build in figures.builds():
        head += [f'Rust, {BUILDS[build]}', 'ratio']
    rows = []
    for case, size in figures.cases('time'):
        which = {'part': 'time', 'operation': operation, 'case': case}
        row = [case, f'{size:,}', shown_time(figures.median(side=OURS, **which))]
        for build in figures.builds():
            row.append(shown_time(figures.median(side=RUST, build=build, **which)))
            row.append(shown_ratio(figures.ratio(operation, case, build)))
        rows.append(row)
    return table(head, [row for row in rows if row[2] != NOTHING])


def beside(figures, part, shown):
    """A row for each case and two columns for each operation, of Oddrafisk and of the stricter build of the Rust."""
    sides = [('Oddrafisk', {'side': OURS})]
    sides += [('Rust', {'side': RUST, 'build': build}) for build in figures.builds()[-1:]]
    head = [f'{name}, {said}' for name in OPERATIONS.values() for said, _ in sides]
    rows = [[case, *(shown(figures.median(part=part, operation=operation, case=case, **side), size)
                     for operation in OPERATIONS for _, side in sides)]
            for case, size in figures.cases(part)]
    return table(['', *head], rows)


def per_megabyte(figures):
    return beside(figures, 'time', lambda time, size: shown_time(time and time / size * 1e6))


def instructions(figures):
    if not figures.cases('instructions'):
        return 'Not counted in this run.'
    return beside(figures, 'instructions', lambda count, _: shown_count(count))


def checksum(figures):
    columns = [(name, {'side': name}) for name in ('slicing by 8', 'slicing by 16')]
    columns += [('Oddrafisk', {'side': OURS})]
    columns += [(f'crc32c, {BUILDS[build]}', {'side': RUST, 'build': build}) for build in figures.builds()]
    rows = [[case, f'{size:,}', *(shown_count(size / figures.median(part='checksum', case=case, **column) * 1000)
                                  for _, column in columns)]
            for case, size in figures.cases('checksum')]
    return table(['', 'bytes', *(name for name, _ in columns)], rows)


def growth(figures, form):
    columns = [figures.per_byte(form, operation) for operation in GROWING]
    rows = [[picture.shown_size(line[0][0]), *(f'{time:.3f}' for _, time in line)] for line in zip(*columns)]
    settled = [[time for size, time in column if size >= SETTLED] for column in columns]
    spread = [f'most by least, from {picture.shown_size(SETTLED)}', *(f'{max(c) / min(c):.2f}' for c in settled)]
    return table(['', *GROWING.values()], [*rows, spread])


def slower(figures):
    lines = []
    for operation, name in OPERATIONS.items():
        for case, _ in figures.cases('time'):
            for build, how in BUILDS.items():
                ratio = figures.ratio(operation, case, build)
                if ratio is not None and ratio < 1:
                    lines.append(f'- {name}, {case}, {how}: {shown_ratio(ratio)}')
    return '\n'.join(lines) or 'Nothing was slower in this run.'


# What makes the parts of the document, by the names of their marks, in order.
PARTS = {
    'machine': machine,
    'bars': bars,
    'users': users,
    'read': lambda figures: compared(figures, 'read'),
    'write': lambda figures: compared(figures, 'write'),
    'canonical': lambda figures: compared(figures, 'is_canonical'),
    'megabyte': per_megabyte,
    'slower': slower,
    'checksum': checksum,
    'instructions': instructions,
    'growth of many': lambda figures: growth(figures, 'many small records'),
    'growth of one': lambda figures: growth(figures, 'one large value'),
}
# Those that say nothing without the Rust.
BESIDE_THE_RUST = ('bars', 'slower')


def filled(text, name, made):
    marks = re.compile(f'(<!-- {name} -->\n).*?(<!-- end -->)', re.DOTALL)
    text, times = marks.subn(lambda found: f'{found[1]}\n{made}\n\n{found[2]}', text)
    if times != 1:
        raise SystemExit(f'the document has {times} places for: {name}')
    return text


def main():
    results, document, drawing = map(pathlib.Path, sys.argv[1:])
    figures = Figures(results)
    with_rust = bool(figures.builds())
    text = document.read_text('utf-8')
    for name, make in PARTS.items():
        if with_rust or name not in BESIDE_THE_RUST:
            made = make(figures)
            text = filled(text, name, made)
            print(f'{name}:\n\n{made}\n')
    if with_rust:
        document.write_text(text, 'utf-8')
        drawing.write_text(picture.drawn(figures), 'utf-8')
    else:
        print('Oddrafisk was measured alone: the document and its picture are left as they are.')


main()
