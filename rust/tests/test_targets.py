"""Test the build of the program for a machine: the compiler's arguments, the results, and missing parts."""
import os
import shutil
import subprocess
from pathlib import Path
from unittest import mock

import pytest

from rust import targets
from rust.build import Failed
from rust.crates import Missing
from rust.targets import MACHINES, Machine


def test_no_path_of_this_machine_is_compiled_in() -> None:
    with mock.patch.object(targets, "library", lambda machine: Path("/kept/usr")):
        remap, static = "--remap-path-prefix=/a b=.", ["-C", "target-feature=+crt-static"]
        sysroot = "--sysroot=/kept/usr"
        for name, is_static, wanted in (("amd64", False, [remap]), ("amd64", True, [remap, *static]),
                                        ("arm64", True, [remap, *static, sysroot]),
                                        ("arm64", False, [remap, sysroot])):
            assert targets.flags_of(Path("/a b"), MACHINES[name], is_static) == wanted


def commands(tmp_path: Path, machine: str, is_static: bool) -> list[tuple[tuple[object, ...], dict[str, str]]]:
    """Return the commands that build a program, with their settings."""
    calls: list[tuple[tuple[object, ...], dict[str, str]]] = []

    def output_of(*words: object, folder: Path | None = None, settings: dict[str, str] | None = None) -> str:
        calls.append((words, settings or {}))
        if "-o" in words:
            Path(str(words[words.index("-o") + 1])).write_text("stripped")
        return ""

    with mock.patch.object(targets, "output_of", output_of), mock.patch.object(shutil, "which", lambda name: name):
        with mock.patch.object(targets, "library", lambda machine: Path("/l/usr")):
            to = targets.built(tmp_path, MACHINES[machine], is_static, tmp_path / "made" / "rs_source")
    assert (to.read_text(), to.stat().st_mode & 0o777) == ("stripped", 0o755)
    return calls


def test_each_machine_has_its_linker_strip_and_folder(tmp_path: Path) -> None:
    folders = set()
    for machine, linker, strip in (("amd64", "cc", "strip"),
                                   ("arm64", "aarch64-linux-gnu-gcc", "aarch64-linux-gnu-strip")):
        for is_static in (False, True):
            (build, settings), (stripping, _) = commands(tmp_path, machine, is_static)
            triple = MACHINES[machine].triple
            prefix = f"CARGO_TARGET_{triple.upper().replace('-', '_')}"
            assert build[-2:] == ("--target", triple)
            assert {"--locked", "--offline", "--release"} <= {str(word) for word in build}
            assert (settings[f"{prefix}_LINKER"], stripping[0]) == (linker, strip)
            assert (build[0], settings["RUSTC"]) == ("/usr/bin/cargo", "/usr/bin/rustc")
            assert settings["CARGO_HOME"] == str(tmp_path.resolve() / "target/home")
            flags = settings["CARGO_ENCODED_RUSTFLAGS"].split("\x1f")
            assert (flags[0], "-C" in flags) == (f"--remap-path-prefix={tmp_path.resolve()}=.", is_static)
            assert triple in str(stripping[-1])
            folders.add(str(stripping[-1]))
    assert len(folders) == 4


def test_what_is_missing_is_told(tmp_path: Path) -> None:
    needed = {"aarch64-linux-gnu-gcc": "gcc-aarch64-linux-gnu", "aarch64-linux-gnu-strip": "gcc-aarch64-linux-gnu",
              "/usr/bin/cargo": "cargo-web", "/usr/bin/rustc": "rustc-web"}
    for lacking, package in needed.items():
        with mock.patch.object(shutil, "which", lambda name: None if name == lacking else name):
            with pytest.raises(Missing, match=f"there is no {lacking} here: apt-get install {package}"):
                targets.built(tmp_path, MACHINES["arm64"], True, tmp_path / "program")


def test_a_library_is_kept_by_the_compilers_version_and_whole(tmp_path: Path) -> None:
    fetched: list[str] = []

    def fetch(machine: Machine, to: Path) -> None:
        fetched.append(machine.name)
        (to / "usr").mkdir(parents=True)

    with mock.patch.object(targets, "output_of", lambda *words: "rustc 1.2.3 (abc)\n"):
        with mock.patch.object(targets, "fetched", mock.Mock(side_effect=Failed("no answer"))):
            with pytest.raises(Failed, match="no answer"):
                targets.library(MACHINES["arm64"], tmp_path / "kept")
        assert list((tmp_path / "kept").iterdir()) == []
        with mock.patch.object(targets, "fetched", fetch):
            for _ in range(2):
                kept = tmp_path / "kept/arm64-1.2.3/usr"
                assert targets.library(MACHINES["arm64"], tmp_path / "kept") == kept
                assert kept.is_dir()
    with mock.patch.object(targets, "output_of", lambda *words: "rustc 1.2.4 (abc)\n"), mock.patch.object(targets,
        "fetched", fetch):
        targets.library(MACHINES["arm64"], tmp_path / "kept")
    assert fetched == ["arm64", "arm64"]


def test_the_environment_asks_nothing_of_the_compiler() -> None:
    environment = {"RUSTFLAGS": "-C opt-level=0", "RUSTC_WRAPPER": "a", "CARGO_PROFILE_RELEASE_LTO": "off",
                   "OTHER": "kept"}
    with mock.patch.dict(os.environ, environment):
        found = targets.output_of("env", settings={"CARGO_HOME": "/home"}).splitlines()
    assert [line for line in found if line.startswith(("RUST", "CARGO", "OTHER"))] == [
        "OTHER=kept", "CARGO_HOME=/home"]


def test_a_step_that_fails_is_told_in_a_line() -> None:
    with pytest.raises(Failed, match="^sh failed: second$"):
        targets.output_of("sh", "-c", "echo first; echo second >&2; exit 3")
    with pytest.raises(Failed, match="^sh failed: error: a reason$"):
        targets.output_of("sh", "-c", "echo error: a reason >&2; echo last >&2; exit 3")
    with pytest.raises(Failed, match="^sh failed: status 4$"):
        targets.output_of("sh", "-c", "exit 4")


def test_a_folder_that_is_no_workspace_is_told(tmp_path: Path) -> None:
    finished = subprocess.run(["python3", "-m", "rust.targets", str(tmp_path), "amd64"],
                              capture_output=True, text=True, cwd=Path(targets.__file__).parents[1])
    assert (finished.returncode, finished.stdout) == (1, "")
    assert finished.stderr == f"rust.targets: {tmp_path} is no workspace of `make rust`\n"
