"""Test that one line reports a missing part."""
import subprocess
import tempfile
from pathlib import Path
from unittest import mock

import pytest

from rust import build, crates
from rust.crates import Missing, vendored
from rust.workspace import manifest_of


def registry(room: str, versions: dict[str, str]) -> Path:
    """Return a registry with these crates."""
    for name, version in versions.items():
        folder = Path(room, f"{name}-{version}")
        folder.mkdir()
        (folder / "Cargo.toml").write_text(f'[package]\nname = "{name}"\nversion = "{version}"\n')
    return Path(room)


def test_each_crate_is_found_by_its_version() -> None:
    with tempfile.TemporaryDirectory() as room:
        found = list(vendored(registry(room, crates.VENDORED)))
    assert len(found) == len(crates.VENDORED)


def test_a_crate_of_another_version_is_told() -> None:
    with tempfile.TemporaryDirectory() as room:
        folder = registry(room, {**crates.VENDORED, "syn": "2.0.1"})
        with pytest.raises(Missing, match=r"the crate syn of version 1\.0\.107 is needed; there is syn-2\.0\.1"):
            list(vendored(folder))


def test_a_crate_of_another_version_in_its_folder_is_told() -> None:
    with tempfile.TemporaryDirectory() as room:
        folder = registry(room, crates.VENDORED)
        (folder / "syn-1.0.107/Cargo.toml").write_text('[package]\nname = "syn"\nversion = "1.0.108"\n')
        needed = r"the crate syn of version 1\.0\.107 is needed"
        with pytest.raises(Missing, match=rf"{needed}; there is syn-1\.0\.107"):
            list(vendored(folder))


def test_a_crate_that_is_not_there_is_told() -> None:
    with tempfile.TemporaryDirectory() as room:
        with pytest.raises(Missing, match="there is none in .*: apt-get install librust-proc-macro2-dev"):
            list(vendored(Path(room)))


def test_no_kit_is_told() -> None:
    with mock.patch.object(subprocess, "run", side_effect=FileNotFoundError):
        with pytest.raises(Missing, match="there is no Rattle kit here"):
            crates.kit()


def test_an_old_cargo_is_told() -> None:
    old = mock.Mock(stdout="cargo 1.63.0 (fd9c4297c 2022-07-01)\n")
    with mock.patch.object(subprocess, "run", return_value=old):
        with pytest.raises(Missing, match="no cargo of version 1.89 or later"):
            build.cargo()


def test_tests_that_are_left_out_are_told() -> None:
    passed = [f"test result: ok. {count} passed; 0 failed; 0 ignored\n" for count in (3, 4)]
    assert build.passed("".join(passed)) == 7
    for output in ("", "test result: ok. 3 passed; 0 failed; 1 ignored\n"):
        with pytest.raises(build.Failed):
            build.passed(output)


def test_a_crate_names_what_it_needs() -> None:
    made = manifest_of(crates.Crate("rs_a", ("rs_b", "md5", "httparse", "jiff", "thiserror")), ["rs_a", "rs_b"])
    for line in ('rs_b = { path = "../../crates/rs_b" }', 'jiff = { path = "../../shim/jiff" }',
                 'md5 = { package = "md5_choice", path = "../../shim/md5_choice" }', 'thiserror = "=1.0.38"',
                 'httparse = { path = "../../kit/httparse" }', "[lints]\nworkspace = true"):
        assert line in made
