"""How a script of the gate ends: the last line says how many tests have passed and failed. None tried is a failure."""
import sys


def end(passed, failed):
    print("%d passed, %d failed" % (passed, failed))
    sys.exit(0 if passed and not failed else 1)


def conclude(tests, summary):
    """Ends with the faults of each test, by its name, or with a summary where none has any."""
    tests = tests or {"": ["there is nothing to check"]}
    print("\n".join(fault for faults in tests.values() for fault in faults) or summary)
    failed = sum(1 for faults in tests.values() if faults)
    end(len(tests) - failed, failed)
