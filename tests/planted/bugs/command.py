"""Planted bugs of the command `ropepeach`. __init__.py has the form of a row.

The first bugs passed every check of an earlier tree. Half of the later ones show only at sizes and in orders that no
other test covers.
"""
from __future__ import annotations

from tests.planted.plants import Bug

MIRROR, FILL, COLLECTION = (f"operations/tests/model/test_{name}.py -x" for name in ("mirror", "fill", "collection"))
EXACT, ONCE, AGAIN = (f"operations/tests/tools/test_{name}.py::test_" for name in ("exact", "fill", "fill_again"))
TESTS = "operations/tests/tools/test_"


def tool(what: str, file: str, old: str, new: str, tests: str) -> Bug:
    """Return a bug in a file of the command."""
    return Bug(what, f"operations/ropepeach/{file}.py", old, new, tests)


OF_MIRROR = [
    tool(
        "a moment is remembered before a failed fetch is told", "mirror/engine",
        "            self.save()\n            more =",
        "            self.folder.place_all()\n            self.folder.remember(aim.state)\n"
        "            self.save()\n            more =",
        MIRROR,
    ),
    tool(
        "a Change List that went back is taken as an increment", "mirror/aims",
        "if state.newest <= changes.newest and is_one_history(state.mark, changes):",
        "if changes.newest:",
        MIRROR,
    ),
    tool(
        "the newest moment is that of the Change List alone", "mirror/aims",
        "max(changes.newest, self.listed)",
        "changes.newest",
        f"{TESTS}mirror_known.py::test_a_source_that_went_back_is_detected_by_the_moments_of_its_resources",
    ),
    tool(
        "a fault is forgotten where two more passes come", "mirror/engine",
        "            wrong = {name: why for name, why in wrong.items() if name not in due} | missing\n",
        "            wrong = missing\n",
        MIRROR,
    ),
    tool(
        "an increment says nothing of what it could not have", "mirror/engine",
        "            missing = self.bring(due)\n",
        "            missing = self.bring(due) if aim.way == BASELINE else self.bring(due) and {}\n",
        MIRROR,
    ),
    tool(
        "a base is compared without its end", "resync/lists",
        'if not address.startswith(self.base + "/"):',
        "if not address.startswith(self.base):",
        f"{EXACT}a_base_is_compared_to_its_end",
    ),
    tool(
        "28 bytes of a digest are compared", "resync/facts",
        "for algorithm in algorithms_of(facts)]) == listed\n",
        "for algorithm in algorithms_of(facts)])[:-4] == listed[:-4]\n",
        f"{EXACT}every_digit_of_a_digest_counts",
    ),
    tool(
        "the first of two digests is passed over", "resync/facts",
        "if algorithm in digests or not HEX",
        "if not HEX",
        f"{EXACT}a_repeated_digest_is_refused",
    ),
    tool(
        "a list may not have the longest body", "resync/facts",
        "int(length) > LONGEST_BODY",
        "int(length) >= LONGEST_BODY",
        f"{EXACT}the_longest_body_is_mirrored_and_put",
    ),
    tool(
        "the order of changes is not looked at", "resync/lists",
        "if any(first >= then for first, then in zip([bounds.start, *moments], moments)):",
        "if not bounds:",
        f"{EXACT}changes_out_of_order_remove_nothing",
    ),
    tool(
        "the newest moment leaves out the ends of parts", "resync/lists",
        "newest = max([bounds.start, bounds.latest, *moments])",
        "newest = max([bounds.start, *moments])",
        MIRROR,
    ),
    tool(
        "a part older than its index is taken", "resync/lists",
        "if wanted is not None and (own is None or own < wanted):",
        "if wanted is not None and (own is not None and own < wanted):",
        f"{EXACT}a_part_older_than_its_index_is_read_again",
    ),
    tool(
        "two runs share a folder", "mirror/tree",
        "fcntl.flock(folder, fcntl.LOCK_EX | fcntl.LOCK_NB)",
        "fcntl.flock(folder, fcntl.LOCK_SH | fcntl.LOCK_NB)",
        f"{EXACT}a_second_run_on_a_folder_is_refused",
    ),
    tool(
        "what came before a silence is dropped", "mirror/engine",
        "        except BaseException:\n            self.keep()\n            raise\n",
        "        except BaseException:\n            raise\n",
        f"{EXACT}files_fetched_before_a_silence_stay",
    ),
    tool(
        "a part of a collection removes at once", "mirror/collection",
        "        self.removals[name] = True\n",
        "        super().remove(name)\n        self.removals[name] = True\n",
        f"{EXACT}nothing_of_a_collection_is_removed_while_a_source_is_away",
    ),
    tool(
        "the moment goes back to that of the last change", "mirror/aims",
        "        until, newest = since if last is None else last.moment, max(changes.newest, self.listed)\n",
        "        until, newest = since if last is None else last.moment, max(changes.newest, self.listed)\n"
        "        until = min(until, changes.newest)\n",
        MIRROR,
    ),
    tool(
        "Ctrl-C reaches the processes of sources", "collection/workers",
        "        signal.signal(signal.SIGINT, signal.SIG_IGN)\n",
        "",
        f"{EXACT}ctrl_c_ends_a_mirror_of_a_collection_in_one_line",
    ),
]
OF_COLLECTION = [
    tool(
        "what was changed meanwhile is deleted", "collection/grow",
        "changed = {entry.name for entry in self.source.changes(self.newest).entries} if going else set()",
        "changed = set[str]()",
        COLLECTION,
    ),
    tool(
        "two holders that differ are not compared", "collection/grow",
        "elif other.facts != astray.facts:",
        'elif other.facts == b"":',
        COLLECTION,
    ),
    tool(
        "a home that differs is not compared", "collection/grow",
        "        if differing:\n            raise Fault(differing_line([(",
        "        if False:\n            raise Fault(differing_line([(",
        "operations/tests/collection/test_refusals.py::test_grow_refuses_before_it_changes_anything",
    ),
    tool(
        "a status forgets a source that ended early", "collection/fill",
        "is_early, is_missed = is_early or bool(why), is_missed or is_left",
        "is_early, is_missed = bool(why), is_missed or is_left",
        COLLECTION,
    ),
    tool(
        "a collection is silent about what is astray", "collection/show",
        "    astray = [stray for _, names in found.values() for stray in names]\n",
        "    astray = []\n",
        COLLECTION,
    ),
    tool(
        "what is held is put again", "collection/grow",
        "self.coming = [astray for astray in coming if astray.name not in self.resources]",
        "self.coming = list(coming)",
        COLLECTION,
    ),
    tool(
        "changes since the publication are not told", "collection/show",
        "self.is_published = self.facts == listed",
        "self.is_published = self.facts.keys() == listed.keys()",
        COLLECTION,
    ),
    tool(
        "a description that does not name each source is taken", "collection/grow",
        "    if missing:\n",
        '    if missing == [""]:\n',
        COLLECTION,
    ),
    tool(
        "a source that grew publishes nothing", "collection/grow",
        "if self.sending.put and self.arguments.publish:",
        "if not self.sending.put and self.arguments.publish:",
        COLLECTION,
    ),
    tool(
        "the last source takes part in no fill", "collection/fill",
        "return changed(workers.answers_to(dict.fromkeys(answers, FillStep.CHANGE)))",
        "return changed(workers.answers_to(dict.fromkeys(list(answers)[:-1], FillStep.CHANGE)))",
        COLLECTION,
    ),
    tool(
        "the folder is not synced behind a takeover", "admin/takeover",
        "        os.rename(made, name, src_dir_fd=folder, dst_dir_fd=folder)\n        os.fsync(folder)\n",
        "        os.rename(made, name, src_dir_fd=folder, dst_dir_fd=folder)\n",
        f"{EXACT}the_folder_is_synced_after_a_takeover",
    ),
]
# Later bugs, half of them at sizes and in orders that no row has.
OF_SIZES = [
    tool(
        "a long file is compared by its first MiB", "mirror/contents",
        "                while piece := file.read(PIECE):\n                    measure.take(piece)\n",
        "                measure.take(file.read(PIECE))\n",
        f"{EXACT}the_longest_body_is_mirrored_and_put",
    ),
    tool(
        "the last file of a full batch has no place", "mirror/folder",
        "        for path, name in synced:\n",
        "        for path, name in synced[: BATCH - 1]:\n",
        f"{EXACT}files_of_several_batches_are_all_there",
    ),
    tool(
        "a list of 50,000 entries is refused", "resync/sitemaps",
        "            if self.entries > MOST_ENTRIES:",
        "            if self.entries >= MOST_ENTRIES:",
        f"{EXACT}a_list_has_at_most_50_000_entries",
    ),
    tool(
        "a list of 50,001 entries is taken", "resync/sitemaps",
        "            if self.entries > MOST_ENTRIES:",
        "            if self.entries > MOST_ENTRIES + 1:",
        f"{EXACT}a_list_has_at_most_50_000_entries",
    ),
    tool(
        "a name of 240 bytes is refused", "resync/facts",
        "len(text) <= LONGEST_NAME",
        "len(text) < LONGEST_NAME",
        MIRROR,
    ),
    tool(
        "a file whose name has 240 bytes is left out", "fill/files",
        "        if len(name) > LONGEST_NAME:",
        "        if len(name) >= LONGEST_NAME:",
        FILL,
    ),
    tool(
        "a group has 17 changes", "fill/send",
        "MOST_GROUPED, LONGEST_GROUPED = 16,",
        "MOST_GROUPED, LONGEST_GROUPED = 17,",
        FILL,
    ),
    tool(
        "half of a mirror may not go", "http/limits",
        "elif 2 * count > total and not self.is_sure:",
        "elif 2 * count >= total and not self.is_sure:",
        "operations/tests/tools/test_attacks.py::test_changes_remove_half_of_a_mirror_and_no_more_without_yes",
    ),
    tool(
        "--max-delete counts one more", "http/limits",
        "            if count > self.removals:",
        "            if count > self.removals + 1:",
        MIRROR,
    ),
    tool(
        "half of a source may not be deleted", "fill/plan",
        "    elif 2 * gone > total and",
        "    elif 2 * gone >= total and",
        f"{ONCE}half_of_the_resources_may_be_deleted_without_yes",
    ),
    tool(
        "a part that ends at the moment is read again", "resync/lists",
        "if until > self.after)",
        "if until >= self.after)",
        MIRROR,
    ),
    tool(
        "an order of names forgets those that have others below", "mirror/folder",
        "            if self.tree.is_file(above):\n                self.tree.move(above, above + ASIDE)\n",
        "            if self.tree.is_file(above):\n                self.tree.remove(above)\n",
        MIRROR,
    ),
    tool(
        "a file that stepped aside stays aside", "mirror/folder",
        "        if self.tree.is_file(path + ASIDE) and not self.tree.is_there(path):",
        '        if path.count("/") and self.tree.is_file(path + ASIDE) and not self.tree.is_there(path):',
        MIRROR,
    ),
    tool(
        "removals of a second pass are not counted", "mirror/engine",
        "            self.check_removals(due)\n",
        "",
        f"{TESTS}attacks.py::test_files_that_came_and_went_within_a_run_do_not_count_as_removed",
    ),
    tool(
        "a baseline leaves what is remembered", "mirror/aims",
        "            return cleared if state.until is not None else None\n",
        "            return None\n",
        f"{EXACT}a_baseline_that_ended_early_is_repeated",
    ),
    tool(
        "a name that is deleted and put again stays away", "resync/lists",
        "[entry for entry in entries if entry.moment > bounds.after]",
        "[entry for entry in entries if entry.moment > bounds.after and (entry.facts is None or entry.name not "
        "in {other.name for other in entries if other.facts is None})]",
        MIRROR,
    ),
    tool(
        "GiB count as 1,000 MiB", "cli/numbers",
        '"GiB": 1 << 30',
        '"GiB": 1000 << 20',
        f"{EXACT}sizes_have_units",
    ),
]
# Bugs that no earlier check noticed.
OF_EDGES = [
    tool(
        "only the nearest of the folders that a deletion empties goes", "mirror/folder",
        "        for above in reversed(above_it(name)):\n            self.drop_empty(above)",
        "        for above in above_it(name)[-1:]:\n            self.drop_empty(above)",
        "operations/tests/tools/test_attacks.py::test_all_folders_that_a_deletion_empties_are_removed",
    ),
    tool(
        "a source that changes in a second pass changes too fast", "mirror/aims",
        "    passes = 50\n", "    passes = 2\n",
        f"{EXACT}a_resource_that_changes_in_every_pass_is_followed",
    ),
    tool(
        "a list in parts may have an entry more", "resync/lists",
        "            if counted > limit:\n", "            if counted > limit + 1:\n",
        f"{EXACT}the_parts_of_a_list_have_at_most_50_000_entries_together",
    ),
    tool(
        "a file that was written a moment ago is put as it is", "fill/files",
        "return FileReading(body, is_same and not is_young,", "return FileReading(body, is_same,",
        f"{ONCE}a_file_that_is_being_written_is_put_whole",
    ),
    tool(
        "what is remembered of many files is told to be lost", "fill/memory",
        '                self.database.execute("COMMIT")\n                self.database.execute("BEGIN IMMEDIATE")\n',
        '                self.database.execute("COMMIT")\n',
        f"{AGAIN}a_killed_run_leaves_right_rows_and_another_folder_is_read_whole",
    ),
    tool(
        "the documents of a run with nothing to do are not looked at", "fill/plan",
        "if is_as_then and source.has_unchanged(documents):", "if is_as_then:",
        f"{AGAIN}nothing_is_compared_where_nothing_changed",
    ),
    tool(
        "a run that has read young files counts as one with nothing to do", "fill/plan",
        "self.known == self.files:", "self.same == self.files:",
        f"{AGAIN}a_recently_changed_file_is_read_again",
    ),
    tool(
        "a run with other options is one with nothing to do", "fill/plan",
        'f"{options!r}\\n{self.text}\\n"', 'f"{self.text}\\n"',
        f"{AGAIN}files_are_compared_where_an_option_changed {AGAIN}unchanged_files_are_not_read",
    ),
]
