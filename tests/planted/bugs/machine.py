"""Planted bugs in the image and in the sources of the packages, for tests that need a whole Debian."""
from __future__ import annotations

from tests.planted.plants import Bug


def image(what: str, old: str, new: str, test: str) -> Bug:
    """Return a bug in the image, and the test that must notice it."""
    check = f"operations/tests/image/test_image.py::test_{test}"
    return Bug(what, "operations/image/layout.py", old, new, check, is_long=True)


def fresh(what: str, file: str, old: str, new: str, test: str) -> Bug:
    """Return a bug in a file of the sources, and the test that must notice it."""
    check = f"--long operations/tests/fresh/test_fresh.py::test_{test}"
    return Bug(what, file, old, new, check, is_long=True)


SOURCES, WHEEL = "pip_installs_the_sources", "a_wheel_and_an_archive_of_sources_are_built"
STAMP, PACKAGES = ("no_package_is_built_without_the_program_and_its_stamp",
                   "packages_are_built_of_a_program_with_its_stamp")

OF_IMAGE = [
    image("the image runs as root", '"--config.user", user', '"--config.user", "0:0"',
          "the_image_is_small_and_its_user_is_not_root"),
    image("the first process of the image reaps no child", '("/usr/bin/tini", "--", "/usr/bin/rs_source")',
          '("/usr/bin/rs_source",)', "the_first_process_of_a_container_is_tini"),
]

OF_SOURCES = [
    fresh("the sources lack the text of the site", "pyproject.toml", '["site.nginx"]', "[]", SOURCES),
    fresh("pip installs a command of another name", "pyproject.toml", 'ropepeach = "ropepeach.__main__',
          'rope = "ropepeach.__main__', SOURCES),
    # (a run of planted bugs takes an import that fails for a broken text)
    fresh("the command needs a module of another package", "operations/ropepeach/fill/command.py", "import argparse",
          "import argparse\ntry:\n    import requests\nexcept ImportError:\n"
          '    raise SystemExit("no requests") from None', SOURCES),
    fresh("the archive of the sources lacks the modules", "MANIFEST.in", "prune tests\n",
          "prune operations\nprune tests\n", WHEEL),
    fresh("the build needs a later setuptools", "pyproject.toml", "setuptools>=61", "setuptools>=610", WHEEL),
    fresh("dpkg-buildpackage reads no stamp", "operations/package/rules.py", "    read_stamp(PROVED, False)\n\n", "\n",
          STAMP),
    fresh("dpkg-buildpackage takes any bytes with a stamp", "operations/package/stamp.py",
          "stamp.sha256 != digest(program)", "False", STAMP),
    fresh("a package lacks the command", "operations/package/places.py", '"bin/ropepeach", b""', '"bin/rope", b""',
          PACKAGES),
]
