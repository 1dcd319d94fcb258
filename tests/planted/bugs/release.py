"""Planted bugs in `make release` (operations/tests/release)."""
from __future__ import annotations

from tests.planted.plants import Bug


def bug(what: str, file: str, old: str, new: str, test: str) -> Bug:
    """Return a bug in a file, and the test that must notice it."""
    return Bug(what, file, old, new, f"operations/tests/release/test_release.py::test_{test}")


GROUNDS, GATHERED, ARTIFACTS = (f"operations/release/{name}.py" for name in ("grounds", "gathered", "artifacts"))
REFUSED, REPLACED, SAME = ("an_unfit_release_is_refused", "a_release_is_replaced_whole_or_not_at_all",
                           "two_gatherings_are_the_same")
TEXTS, SKIPS = "proved_and_changes_describe_the_release", "with_skips_allows_skips_and_proved_names_them"

OF_GROUNDS = [
    bug("a changed tree is released", GROUNDS,
        "    if state.changes:\n", "    if state.changes and not state.commit:\n",
        REFUSED),
    bug(
        "no verdict is a green one", GROUNDS,
        "    except verdict.NoVerdict as why:\n        raise Unfit(str(why)) from None\n",
        "    except verdict.NoVerdict:\n"
        '        found = Verdict(state.commit, (), "kit-1 logic abc", 1, (), (), "1 passed, 0 failed")\n',
        REFUSED,
    ),
    bug("a verdict of any commit is taken", GROUNDS,
        "if found.commit != state.commit:", "if not found.commit:", REFUSED),
    bug("a verdict of a changed tree is taken", GROUNDS, "    if found.changes:\n",
        "    if found.changes and not found.commit:\n", REFUSED),
    bug("a red gate is green", "tests/verdict.py", "self.passed > 0 and not self.failed", "self.passed > 0", REFUSED),
    bug("an empty gate is green", "tests/verdict.py",
        "self.passed > 0 and not self.failed", "not self.failed", REFUSED),
    bug("skips are always allowed", GROUNDS,
        "if found.skipped and not with_skips:", "if found.skipped and not found.line:",
        REFUSED),
    bug("skips are never allowed", GROUNDS, "if found.skipped and not with_skips:", "if found.skipped:", SKIPS),
    bug("a tag on another commit is ignored", GROUNDS, "if tag and tag != commit:", "if tag and not commit:", REFUSED),
    bug("any tag is refused", GROUNDS, "if tag and tag != commit:", "if tag:", "a_tag_on_the_same_commit_is_allowed"),
    bug("a program of any commit is released", GROUNDS, "if known.commit != found.commit or known.has_changes:",
        "if not known.commit:", REFUSED),
    bug("a program of any prover is released", GROUNDS, "if known.kit != found.kit:", "if not known.kit:", REFUSED),
    bug("the section of a version has the older ones", GROUNDS,
        'body = re.split(r"(?m)^## \\[", heading.split(text)[1])[0].strip()', "body = heading.split(text)[1].strip()",
        TEXTS),
    bug("the section of a version has no day", GROUNDS, '{version}, {day}\\n', '{version}, \\n', TEXTS),
]

OF_ARTIFACTS = [
    bug("PROVED hides a skip", ARTIFACTS, "for why in found.skipped)", "for why in found.skipped[:1])", SKIPS),
    bug("PROVED calls all programs proved", ARTIFACTS, "NOT proved, but built", "Also built", TEXTS),
    bug("PROVED has one digest twice", ARTIFACTS,
        "packed=packed, compiler", "packed=grounds.stamp.sha256, compiler", TEXTS),
    bug("a release lacks its image", ARTIFACTS,
        "                Part((image_name(self.version),), self.write_image),\n", "", "each_artifact_has_one_maker"),
    bug("a release passes over a missing artifact", GATHERED, '            raise Unfit(f"{name} was not made")\n',
        "            continue\n", REPLACED),
    bug(
        "files of an earlier release stay", GATHERED,
        "        files = sorted(new.iterdir())\n",
        "        for old in to.iterdir() if to.exists() else []:\n            if not (new / old.name).exists():\n"
        "                shutil.copy2(old, new)\n        files = sorted(new.iterdir())\n",
        REPLACED,
    ),
    bug("files of a release have the hour", GATHERED, "os.utime(path, (moment, moment))", "os.utime(path)", SAME),
    bug("files of a release have the modes of the mask", GATHERED,
        "chmod(0o755 if name in part.programs else 0o644)",
        "chmod((0o755 if name in part.programs else 0o644) & ~os.umask(0o022))", SAME),
    bug("SHA256SUMS has other digests", GATHERED,
        "{digest(path)}  {path.name}", "{digest(path)[::-1]}  {path.name}", SAME),
    bug("a program of a release does not run", GATHERED, "0o755 if name in part.programs else 0o644", "0o644", SAME),
    bug("the plain tarball has the hour", "rust/__main__.py", "member.uid = member.gid = member.mtime = 0",
        "member.uid = member.gid = 0", "the_plain_tarball_has_the_same_bytes"),
    bug("a plain program is packed as the proved one", "operations/package/rules.py",
        "if known.kit.startswith(COMPILER) != is_plain:", "if not known.kit:",
        "plain_and_proved_programs_do_not_swap_packages"),
    bug("a program of any machine is packed", "operations/package/program_facts.py",
        "if not kind or kind[1].strip() != machine.elf:", "if not kind:", "no_program_is_packed_for_another_machine"),
]
