"""What tests have shown, as text, in the Test Anything Protocol, and as JUnit's XML."""
import typing
import xml.sax.saxutils as xml

from lib import refusals
from stepping.reports import counted


class Result(typing.NamedTuple):
    """A case and its outcome."""
    case: typing.Any
    outcome: typing.Any


def failure_rows(source, failure):
    """A failure as messages are, with the line that has to do with it."""
    line = failure.line
    note = failure.note if failure.number is None else None
    yield from refusals.explanation(line.path, line.number, failure.text, line.text, note)
    if failure.number is not None:
        row = refusals.file_shown(source.path) + b':%d: note: %s' % (failure.number, refusals.shown(failure.note))
        yield from source.by_author([row])


def rows_of(source, result):
    """The failures of a case, each with its title."""
    for failure in result.outcome.failures:
        yield from failure_rows(source, failure._replace(text=f'{result.case.title}: {failure.text}'))


def text(rows):
    """Rows as text."""
    return b''.join(row + b'\n' for row in rows)


def summary(tests, results):
    """How many cases there are, and how many have failed."""
    failed = sum(bool(it.outcome.failures) for it in results)
    steps = sum(it.outcome.made for it in results)
    return (f'{counted(len(results), "case")} of {counted(len(tests), "test")}, {failed} failed; '
            f'{counted(steps, "step")}').encode()


def as_text(source, tests, results):
    """The failures, and a summary."""
    for result in results:
        yield from rows_of(source, result)
    yield summary(tests, results)


def as_tap(source, results):
    """A row for each case; after one that failed its failures are remarks."""
    yield b'TAP version 13'
    yield b'1..%d' % len(results)
    for number, result in enumerate(results, 1):
        title = refusals.shown(result.case.title.replace('\\', '\\\\').replace('#', '\\#'))
        yield b'%s %d - %s' % (b'not ok' if result.outcome.failures else b'ok', number, title)
        yield from (b'# ' + row for row in rows_of(source, result))


def quoted(said):
    """A text as an attribute."""
    return xml.quoteattr(refusals.shown(said).decode('utf-8', 'backslashreplace'))


def as_junit(source, results):
    """The results as XML: a test is a class, and each of its cases."""
    name = xml.quoteattr(refusals.file_shown(source.path).decode('utf-8', 'backslashreplace'))
    failed = sum(bool(it.outcome.failures) for it in results)
    yield '<?xml version="1.0" encoding="UTF-8"?>\n'
    yield (f'<testsuite name={name} tests="{len(results)}" failures="{failed}" errors="0" '
           f'time="{sum(it.outcome.seconds for it in results):.3f}">\n')
    for result in results:
        head = f'  <testcase classname={quoted(result.case.test)} name={quoted(result.case.title)} ' \
               f'time="{result.outcome.seconds:.3f}"'
        if not result.outcome.failures:
            yield f'{head}/>\n'
            continue
        said = text(rows_of(source, result)).decode('utf-8', 'backslashreplace')
        yield (f'{head}>\n    <failure message={quoted(result.outcome.failures[0].text)}>{xml.escape(said)}</failure>\n'
               '  </testcase>\n')
    yield '</testsuite>\n'


def listed(tests):
    """A row for each test: where it begins, its name, what it runs, and how many cases it has."""
    for test in tests:
        routine = test.routine
        runs = f'{"calls" if routine.is_called else "from"} {routine.label}'
        row = f'{test.name}: {runs}, {counted(len(test.rows), "case")}'
        yield refusals.file_shown(test.line.path) + b':%d: %s' % (test.line.number, refusals.shown(row))
