"""Test the run of pytest: counts, failures, skips, and the table of executed modules."""

from pathlib import Path
from xml.etree import ElementTree

import pytest

from gate import tested
from gate.tests.samples import write

TESTS = """
import pytest
def test_a(): pass
class TestB:
    def test_b(self): assert 1 == 2
def test_c(): pytest.skip("there is no nginx here")
@pytest.mark.xfail
def test_d(): assert False
@pytest.fixture
def broken(): raise OSError("no room")
def test_e(broken): pass
"""


def test_passed_failed_and_skipped_tests_are_counted(tmp_path: Path) -> None:
    write(TESTS, tmp_path, "low/test_some.py")
    passed, failed, skipped = tested.run(["low"], tmp_path, 1)
    assert passed == 2
    assert failed == ["low/test_some.py::test_b", "low/test_some.py::test_e"]
    assert skipped == ["low/test_some.py::test_c: NOT TRIED: there is no nginx here"]


@pytest.mark.parametrize("text", ["import nothing_of_this_name\n", "def (:\n", "", "raise SystemExit(0)\n"])
def test_tests_that_cannot_run_are_a_failure(tmp_path: Path, text: str) -> None:
    write(text, tmp_path, "test_some.py")
    passed, failed, _ = tested.run([], tmp_path, 1)
    assert passed == 0
    assert failed


def test_a_run_without_pytest_is_skipped_with_the_package(tmp_path: Path, monkeypatch: pytest.MonkeyPatch) -> None:
    monkeypatch.setattr(tested, "NEEDED", {"no_such_module": "python3-none"})
    assert tested.run(["low"], tmp_path, 1) == (0, [], ["pytest low: NOT TRIED: there is no python3-none here"])


def test_no_test_takes_another_program_from_the_environment(tmp_path: Path, monkeypatch: pytest.MonkeyPatch) -> None:
    monkeypatch.setenv("PROGRAM", "another")
    write("import os\ndef test_a(): assert 'PROGRAM' not in os.environ\n", tmp_path, "test_some.py")
    assert tested.run([], tmp_path, 1) == (1, [], [])


def test_seconds_and_modules_are_noted_by_file(tmp_path: Path) -> None:
    report = ElementTree.fromstring(
        '<testsuites><testsuite><testcase file="tests/test_a.py" name="test_1" time="1.5"/>'
        '<testcase file="tests/test_a.py" name="test_2" time="0.25"/>'
        '<testcase file="tests/test_b.py" name="test_3" time="0"/></testsuite></testsuites>')
    write("ropepeach.fill.send\nropepeach.faults\nropepeach.faults\n", tmp_path, "tests%test_a.py")
    assert tested.noted(report, tmp_path) == "tests/test_a.py 1.8 faults fill.send\ntests/test_b.py 0.0\n"
