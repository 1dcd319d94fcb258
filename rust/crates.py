"""The crates of the workspace, their dependencies and origins."""
import re
import subprocess
from collections.abc import Iterator
from dataclasses import dataclass
from pathlib import Path

from rattle.crates import crates_of

ROOT = Path(__file__).resolve().parent.parent
HERE = ROOT / "rust"
VERSION = (ROOT / "VERSION").read_text().strip()
# The kit's ports that are erased like our crates. The folder of each port has its licence.
PORTS = ("hex", "httparse", "httpdate", "itoa", "md5", "sha2")
# Crates that replace the rest of the kit.
STAND_INS = ("rattle_std", "smallvec", "jiff", "jiff_core", "libc")
# Digests: the kit's port, or by a feature the crate of the same name.
CHOICES = ("md5", "sha2")
# Crates of others, by the one version that is known to fit. Debian 12 has them.
VENDORED = {
    "proc-macro2": "1.0.47", "quote": "1.0.21", "syn": "1.0.107", "thiserror": "1.0.38", "thiserror-impl": "1.0.38",
    "unicode-ident": "1.0.0",
    "block-buffer": "0.10.2", "cfg-if": "1.0.0", "cpufeatures": "0.2.4", "crypto-common": "0.1.3", "digest": "0.10.5",
    "generic-array": "0.14.4", "libc": "0.2.139", "md-5": "0.10.1", "sha2": "0.10.5", "typenum": "1.16.0",
    "version_check": "0.9.4",
}
REGISTRY = Path("/usr/share/cargo/registry")


class Missing(Exception):
    """Something that the workspace needs is not here."""


@dataclass(frozen=True)
class Crate:
    """A crate of crates.txt, and the crates that it names."""
    name: str
    needs: tuple[str, ...]


def listed(root: Path = ROOT) -> Iterator[Crate]:
    """Return the crates of the project, the lowest first."""
    yield from (Crate(name, tuple(needs)) for name, needs in crates_of(root).items())


def kit() -> Path:
    """Return the folder of the kit's crates."""
    try:
        page = subprocess.run(["rt", "doc"], capture_output=True, text=True, check=True).stdout.strip()
    except (OSError, subprocess.CalledProcessError) as error:
        raise Missing("there is no Rattle kit here (the command `rt`): "
                      "a release has the tarball that is written from it") from error
    return Path(page).parent / "rattle"


def vendored(registry: Path = REGISTRY) -> Iterator[Path]:
    """Return the folders of the crates of others, of their only versions."""
    for name, version in VENDORED.items():
        folder = next((folder for folder in registry.glob(f"*-{version}") if is_crate(folder, name, version)), None)
        if folder is None:
            others = [folder.name for folder in registry.glob("*") if is_crate(folder, name, None)]
            package = f"librust-{name.replace('_', '-')}-dev"
            none = f"there is none in {registry}: apt-get install {package}"
            found = f"there is {', '.join(others)}" if others else none
            raise Missing(f"the crate {name} of version {version} is needed; {found}")
        yield folder


def is_crate(folder: Path, name: str, version: str | None) -> bool:
    """Return whether a folder has a crate of this name and version."""
    try:
        text = (folder / "Cargo.toml").read_text()
    except OSError:
        return False
    has_name = re.search(rf'^name = "{re.escape(name)}"$', text, re.MULTILINE)
    return bool(has_name) and (version is None or f'\nversion = "{version}"' in text)
