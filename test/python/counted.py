"""Runs the tests of the program that imports this, and counts them: the last line is 'N passed, M failed'. A test counts once, whichever of its
subtests fail. One that is skipped is left out; where none was run the status is 77."""
import multiprocessing
import unittest


class Result(unittest.TextTestResult):
    good = 0

    def addSuccess(self, test):
        super().addSuccess(test)
        self.good += 1


def has_semaphores():
    """Whether a pool of processes runs here, which takes a writable /dev/shm."""
    try:
        return bool(multiprocessing.Lock())
    except (ImportError, OSError):
        return False


def main():
    result = unittest.main(exit=False, testRunner=unittest.TextTestRunner(resultclass=Result, verbosity=2)).result
    broken = {getattr(test, 'test_case', test).id() for test, _ in result.failures + result.errors} | {it.id() for it in result.unexpectedSuccesses}
    for test, why in result.skipped:
        print(f'left out: {test.id()}: {why}')
    print(f'{result.good} passed, {len(broken)} failed', flush=True)
    raise SystemExit(1 if broken else 0 if result.good else 77)
