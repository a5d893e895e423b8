"""What must hold of station.elf, for pytest: of its report, and of each edit of one byte."""
import pytest
import replaycheck

FILES = "station.elf", "station.input"


@pytest.fixture
def run():
    with replaycheck.Run(*FILES) as it:
        yield it


def test_clean(run):
    report = run.report()
    assert (report.state.status, report.errors, report.leaks) == (0, [], [])


def test_unit_comes_from_the_input(run):
    step = run.last_write(0x7fffffc7, before=684)
    assert run.at(step).function == "parse"


def test_every_value_of_byte_1():
    bad = [line for line, outcome in replaycheck.sweep(*FILES, bytes=1) if outcome.has_errors]
    assert bad == []
