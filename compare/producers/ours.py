"""Batches read and written by Oddrafisk: by the library, through compare/processors/driver.c, and by the program
`list`; and batches read by the Rust that it follows, through a program that prints what that driver prints."""
import pathlib
import subprocess
import tempfile
from collections import namedtuple

TOP = pathlib.Path(__file__).resolve().parent.parent.parent
# The lines of a log's batches and records, how many batches the library says are canonical, the bytes that it writes of
# what it has read, those that it gives in converting, and the number that it answers at last.
Reading = namedtuple("Reading", "lines canonical written converted number")
LIST_MOST = 65536
KINDS = ("records", "abort", "commit")
# The words by which the driver is told the mode.
BARE, KEYED = ("--bare",), ()


def run(words, data=b""):
    return subprocess.run(words, input=data, stdout=subprocess.PIPE, check=True).stdout.decode()


def with_file(words, data):
    with tempfile.NamedTemporaryFile() as file:
        file.write(data)
        file.flush()
        return run([*words, file.name]).splitlines()


def accepted(printed):
    """The lines of accepted batches and of their records."""
    return [line for line in printed if line.startswith(("read 0 ", "record "))]


def shown(printed, word):
    """The bytes in the line after each that says that the function of this name accepts."""
    pairs = zip(printed, printed[1:])
    return [bytes.fromhex(output.split()[2]) for line, output in pairs if line.startswith(word + " 0 ")]


def written(printed):
    """The bytes of each batch that was written."""
    return shown(printed, "write")


class Library:
    def __init__(self, driver):
        self.driver = driver

    def answers(self, text, mode):
        return with_file([self.driver, *mode], text.encode())

    def read(self, log, mode=KEYED):
        printed = self.answers("log %s\n" % log.hex().upper(), mode)
        numbers = [line.split()[1] for line in printed if line.startswith("check ")]
        return Reading(accepted(printed), printed.count("canonical 1"), b"".join(written(printed)),
                       b"".join(shown(printed, "convert")), int(numbers[-1]))

    def write(self, batch):
        source, records, headers = b"", [], []

        def row(data):
            nonlocal source
            if data is None:
                return 0, -1
            source += data
            return len(source) - len(data), len(data)

        for record in batch.records:
            records += (record.time - batch.first_timestamp, record.offset - batch.base_offset, *row(record.key),
                        *row(record.value), len(headers) // 4, len(record.headers))
            for key, value in record.headers:
                headers += *row(key.encode()), *row(value)
        numbers = ((0, *batch[:-1], len(batch.records), 0, 0, 0, 0), records, headers)
        text = "|".join(" ".join(map(str, part)) for part in numbers)
        return written(self.answers("write %s|%s\n" % (text, source.hex().upper()), KEYED))[0]


class Rust:
    def __init__(self, program):
        self.program = program

    def read(self, log):
        return accepted(with_file([self.program], log))


class Listing:
    @staticmethod
    def read(log):
        return run([TOP / "tools/program", "list"], log)

    @staticmethod
    def expected(lines, size):
        """What it prints of a log with these lines, all of which is accepted."""
        entries = [line.split()[2:] for line in lines if line.startswith("read")]
        rows = [(e[0], e[13], KINDS[int(e[10])], e[11], e[12]) for e in entries]
        return "".join(" ".join(row) + "\n" for row in [
            ("base", "bytes", "kind", "records", "headers"), *rows, ("end", "at", str(size))])
