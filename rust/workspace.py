"""Write the Cargo workspace."""
import hashlib
import json
import shutil
from collections.abc import Iterable
from pathlib import Path

from rust.crates import CHOICES, HERE, PORTS, ROOT, STAND_INS, VENDORED, VERSION, Crate, kit, listed, vendored
from rust.eraser import macros_of, plain

# The folders of the workspace: `vendor` has the crates of other authors.
OURS, KIT, SHIM, VENDOR = "crates", "kit", "shim", "vendor"
FEATURE = "upstream-digests"
PROGRAM = "rs_source"
RUST_VERSION = "1.89"
# Warnings of rustc about our crates that are allowed, with the reason.
ALLOWED_LINTS = {
    "dead_code": "only clauses use it",
    "unused_imports": "only clauses use it",
    "unused_variables": "only clauses use it",
}
# Warnings of clippy that are allowed, with the reason.
ALLOWED_BY_CLIPPY = {
    "empty_line_after_doc_comments": "an erased line is left empty",
    "new_without_default": "the kit has no Default for these types",
    "len_without_is_empty": "no caller needs it",
    "wrong_self_convention": "the name describes the result",
    "enum_variant_names": "the names come from RFC 9112",
    "too_many_arguments": "the contract names each argument",
    "type_complexity": "the contract has the type",
    # Proofs depend on the form of this code.
    "let_and_return": "a proof names the value",
    "manual_div_ceil": "a proof has the quotient",
    "manual_range_contains": "a clause has both bounds",
    "needless_range_loop": "a proof has the index",
    "nonminimal_bool": "a clause has this shape",
    "question_mark": "a proof has the cases",
    "redundant_closure": "a proof has the function",
}
MANIFEST = """\
[workspace]
resolver = "2"
members = [
{members}]

[workspace.lints.rust]
unsafe_code = "forbid"
{unused}
[workspace.lints.clippy]
{allowed}
[profile.release]
opt-level = 3
overflow-checks = true
panic = "abort"
lto = "fat"
codegen-units = 1

[profile.test]
opt-level = 1
"""
SETTINGS = """\
# vendor/ has all dependencies, so a build needs no network.
[source.crates-io]
replace-with = "vendor"

[source.vendor]
directory = "vendor"

[net]
offline = true
"""


def folder_of(name: str, ours: Iterable[str]) -> str:
    """Return the folder of a crate of crates.txt, relative to the workspace."""
    if name in ours:
        return f"{OURS}/{name}"
    if name in CHOICES:
        return f"{SHIM}/{name}_choice"
    return f"{KIT}/{name}" if name in PORTS else f"{SHIM}/{name}"


def needs_of(crate: Crate, ours: Iterable[str]) -> list[str]:
    """Return the lines of a crate's dependencies."""
    lines = [f'rattle_std = {{ path = "../../{SHIM}/rattle_std" }}']
    for name in crate.needs:
        if name in VENDORED and name not in STAND_INS + PORTS:
            lines.append(f'{name} = "={VENDORED[name]}"')
        else:
            package = f'package = "{name}_choice", ' if name in CHOICES else ""
            lines.append(f'{name} = {{ {package}path = "../../{folder_of(name, ours)}" }}')
    return lines


def manifest_of(crate: Crate, ours: Iterable[str]) -> str:
    """Return the Cargo.toml of one of our crates."""
    head = [f'name = "{crate.name}"', f'version = "{VERSION}"', 'edition = "2024"', f'rust-version = "{RUST_VERSION}"',
            'license = "MIT OR Apache-2.0"', "publish = false"]
    needs = needs_of(crate, ours)
    lines = ["[package]", *head, ""]
    if crate.name == PROGRAM:
        # Its `main` is the C entry point, whose name is kept; the file has no tests.
        lines += ["[[bin]]", f'name = "{PROGRAM}"', 'path = "src/main.rs"', "test = false", ""]
        lines += ["[features]", f'{FEATURE} = ["md5/upstream", "sha2/upstream"]', ""]
        needs += needs_of(Crate("", CHOICES), ours)[1:]
        lints = ["[lints.rust]", *allowed(ALLOWED_LINTS), "", "[lints.clippy]", *allowed(ALLOWED_BY_CLIPPY)]
    else:
        lints = ["[lints]", "workspace = true"]
    return "\n".join([*lines, "[dependencies]", *needs, "", *lints, ""])


def allowed(lints: dict[str, str]) -> list[str]:
    """Return the lines that allow these lints."""
    return [f'{name} = "allow" # {why}' for name, why in lints.items()]


def manifest_of_port(name: str) -> str:
    """Return the Cargo.toml of one of the kit's ports."""
    return "\n".join(["[package]", f'name = "{name}"', f'version = "{VERSION}"', 'edition = "2024"',
                      'license-file = "LICENSE-MIT"'
                      if name != "itoa" else 'license-file = "LICENSE"', "publish = false",
                      "", "[lib]", "doctest = false", "", "[dependencies]",
                      f'rattle_std = {{ path = "../../{SHIM}/rattle_std" }}', "",
                      "[lints.rust]", 'unsafe_code = "forbid"', 'unused_braces = "allow"', 'unused_imports = "allow"',
                      'unused_labels = "allow"', 'unused_variables = "allow"', "", "[lints.clippy]",
                      '# The proofs determine the form of this code.', 'all = "allow"', "", "[lints.rustdoc]",
                      'bare_urls = "allow"', ""])


def write_erased(source: Path, target: Path, name: str) -> int:
    """Write the sources of a crate as plain Rust. Return the number of lines."""
    files = sorted(source.rglob("*.rt"))
    texts = {path: path.read_text(encoding="utf-8") for path in files}
    macros = frozenset[str]().union(*(macros_of(text) for text in texts.values()))
    for path, text in texts.items():
        place = target / path.relative_to(source).with_suffix(".rs")
        place.parent.mkdir(parents=True, exist_ok=True)
        place.write_text(plain(f"{name}/src/{path.relative_to(source)}", text, macros), encoding="utf-8")
    return sum(text.count("\n") for text in texts.values())


def write_ours(out: Path, root: Path) -> tuple[list[str], int]:
    """Write our crates. Return their folders and the number of lines."""
    crates = list(listed(root))
    ours = [crate.name for crate in crates]
    lines = 0
    for crate in crates:
        folder = out / OURS / crate.name
        lines += write_erased(root / "crates" / crate.name / "src", folder / "src", f"crates/{crate.name}")
        (folder / "Cargo.toml").write_text(manifest_of(crate, ours))
    return [f"{OURS}/{name}" for name in ours], lines


def write_ports(out: Path, folder: Path) -> tuple[list[str], int]:
    """Write the kit's ports with their licences. Return their folders and the number of lines."""
    lines = 0
    for name in PORTS:
        lines += write_erased(folder / name / "src", out / KIT / name / "src", f"kit/{name}")
        (out / KIT / name / "Cargo.toml").write_text(manifest_of_port(name))
        for page in [*(folder / name).glob("LICENSE*"), folder / name / "README.md"]:
            shutil.copyfile(page, out / KIT / name / page.name)
    return [f"{KIT}/{name}" for name in PORTS], lines


def write_shim(out: Path) -> list[str]:
    """Copy the replacements for the rest of the kit. Return their folders."""
    folders = [*STAND_INS, *(f"{name}_choice" for name in CHOICES)]
    for name in folders:
        shutil.copytree(HERE / name, out / SHIM / name, ignore=shutil.ignore_patterns("target", "Cargo.lock"))
    return [f"{SHIM}/{name}" for name in folders]


def write_vendored(out: Path) -> None:
    """Copy the crates of other authors, with the checksums that Cargo verifies."""
    for folder in vendored():
        target = out / VENDOR / folder.name
        shutil.copytree(folder, target, symlinks=False,
                        ignore=shutil.ignore_patterns("debian", "tests", "benches", ".*"))
        checksums = json.loads((folder / ".cargo-checksum.json").read_text())
        sums = {str(file.relative_to(target)): hashlib.sha256(file.read_bytes()).hexdigest()
                for file in sorted(target.rglob("*")) if file.is_file()}
        (target / ".cargo-checksum.json").write_text(json.dumps({"package": checksums["package"], "files": sums}))


def write(out: Path, root: Path = ROOT) -> str:
    """Write the whole workspace into a new folder. Return a summary."""
    ports = kit()
    ours, lines = write_ours(out, root)
    kits, lines_of_ports = write_ports(out, ports)
    members = [*ours, *kits, *write_shim(out)]
    write_vendored(out)
    listing = "".join(f'    "{member}",\n' for member in members)
    unused, shape = ("".join(f"{lint}\n" for lint in allowed(lints)) for lints in (ALLOWED_LINTS, ALLOWED_BY_CLIPPY))
    (out / "Cargo.toml").write_text(MANIFEST.format(members=listing, unused=unused, allowed=shape))
    (out / ".cargo").mkdir()
    (out / ".cargo/config.toml").write_text(SETTINGS)
    shutil.copyfile(HERE / "Cargo.lock", out / "Cargo.lock")
    shutil.copyfile(HERE / "WORKSPACE.md", out / "README.md")
    for name in ("LICENSE-APACHE", "LICENSE-MIT", "VERSION"):
        shutil.copyfile(root / name, out / name)
    return f"{len(ours)} crates of {lines:,} lines, {len(kits)} ports of {lines_of_ports:,}, {len(VENDORED)} of others"
