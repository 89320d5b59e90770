"""The figures that bench/run has measured."""

import collections
import statistics

Row = collections.namedtuple('Row', 'pass_number build part operation case bytes side unit median low high')

OURS = 'oddrafisk'
RUST = 'rskafka'
OPERATIONS = {'read': 'read', 'write': 'write', 'is_canonical': 'canonical check'}
GROWING = {'check': 'check', **OPERATIONS, 'copy': 'plain copy'}

# How the Rust's checksum comes to the processor's instruction.
BUILDS = {'found': 'instruction found at run time', 'inlined': 'instruction built in'}

# Which operation of which case has to be how many times as fast as the Rust.
BARS = {('read', '100 small records'): 3, ('read', 'four values of 1 MiB'): 1, ('write', '100 small records'): 3}

# What users call, what it is measured by, and how many times as long it may take.
USERS = {'read a log': ('safe crate', 'C functions', 1.15), 'verify a log': ('program', 'check', 1.5),
         'convert a log': ('convert', 'check and copy', 1.3), 'convert a file': ('program', 'check and copy', 1.3)}


def fields(path):
    return [line.split('\t') for line in path.read_text('utf-8').splitlines()]


class Figures:
    def __init__(self, folder):
        self.rows = [Row(*line) for line in fields(folder / 'figures.tsv')]
        self.machine = fields(folder / 'machine.tsv')

    def builds(self):
        """Those with the Rust, the stricter one last."""
        return [build for build in BUILDS if any(row.build == build for row in self.rows)]

    def cases(self, part):
        """Each case of the part with its bytes, in the order in which they were measured."""
        return list(dict.fromkeys((row.case, int(row.bytes)) for row in self.rows if row.part == part))

    def values(self, **wanted):
        """The medians of the rows that have these fields, one a pass."""
        return [float(row.median) for row in self.rows
                if all(getattr(row, field) == value for field, value in wanted.items())]

    def median(self, **wanted):
        values = self.values(**wanted)
        return statistics.median(values) if values else None

    def ratios(self, operation, case, build):
        """The Rust's time by ours, in each pass."""
        sides = [self.values(part='time', operation=operation, case=case, build=build, side=side)
                 for side in (RUST, OURS)]
        return [rust / ours for rust, ours in zip(*sides)]

    def times_as_long(self, operation):
        """What users call by what it is measured by, in each pass."""
        sides = [self.values(part='users', operation=operation, side=side) for side in USERS[operation][:2]]
        return [theirs / plain for theirs, plain in zip(*sides)]

    def ratio(self, operation, case, build):
        """None where the Rust has no such operation."""
        ratios = self.ratios(operation, case, build)
        return statistics.median(ratios) if ratios else None

    def per_byte(self, form, operation):
        """Nanoseconds a byte as a batch of this form grows: pairs with the size, which is 1 KiB, 4 KiB and so on."""
        sizes = [size for case, size in self.cases('growth') if case == form]
        return [(1024 * 4 ** step, self.median(part='growth', operation=operation, case=form, bytes=str(size)) / size)
                for step, size in enumerate(sizes)]
