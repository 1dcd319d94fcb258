"""Planted bugs of the mirror of sources of any software, which no earlier check noticed. Most are in the lenient rules,
or in the engine of all sources.
"""
from __future__ import annotations

from tests.planted.plants import Bug

TESTS = "operations/tests/mirror_sources"


def bug(what: str, file: str, old: str, new: str, test: str) -> Bug:
    """Return a bug in a file of the command, and the test FILE::NAME that must notice it."""
    return Bug(what, f"operations/ropepeach/{file}.py", old, new,
               f"{TESTS}/test_{test.replace('::', '.py::test_')}")


OF_RUNS = [
    bug(
        "a fault of one pass is forgotten in the next one", "mirror/engine",
        "wrong = {name: why for name, why in wrong.items() if name not in due} | missing",
        "wrong = missing",
        "changing_lists::a_fault_of_the_first_pass_outlasts_a_pass_that_mends_another",
    ),
    bug(
        "removals of passes are not added up", "mirror/engine",
        "self.lost += len(",
        "self.lost = len(",
        "changing_lists::removals_of_all_passes_count_together_against_the_limit",
    ),
    bug(
        "a baseline that begins is not saved", "mirror/engine",
        "self.folder.remember(state)",
        "self.folder.state = state",
        "kills::a_killed_baseline_is_followed_by_a_baseline",
    ),
    bug(
        "an increment takes excluded names", "mirror/lenient_aims",
        "INCREMENTAL, self.filtered(wanted)",
        "INCREMENTAL, wanted",
        "filters::an_increment_takes_no_excluded_file",
    ),
    bug(
        "a set that is named no more is expected for ever", "mirror/lenient_aims",
        "else set(names) == set(before)",
        "else set(names) <= set(before)",
        "changing_lists::a_set_that_is_named_no_more_is_removed",
    ),
    bug(
        "a row is written before the earlier one is read", "mirror/engine",
        "before = before or self.catalogue.row(entry.name)\n",
        "self.catalogue.put(entry.name, row)\n            before = before or self.catalogue.row(entry.name)\n",
        "on_change::updates_deletions_and_new_files_are_reported",
    ),
    bug(
        "the facts of the old file are reported", "mirror/engine",
        "self.events.note(change, row)",
        "self.events.note(change, before or row)",
        "on_change::a_report_has_the_facts_of_the_new_file",
    ),
    bug(
        "changes are reported after they are remembered", "mirror/engine",
        "        self.events.report()\n        self.catalogue.save()\n",
        "        self.catalogue.save()\n        self.events.report()\n",
        "kills::a_kill_at_any_rename_loses_no_report",
    ),
    bug(
        "a folder is as of the latest of several moments", "mirror/lenient_aims",
        "else earliest(moments)",
        "else max(moments, key=lambda moment: moment.first)",
        "changing_lists::a_folder_of_several_moments_is_as_of_the_earliest",
    ),
    bug(
        "lists that do not meet are not read again", "mirror/lenient_aims",
        "READINGS = 3",
        "READINGS = 1",
        "changing_lists::lists_that_do_not_meet_are_read_again",
    ),
    bug(
        "JSON calls a folder exact that has no digests", "mirror/report",
        "sure.startswith(EXACT)",
        "EXACT in sure",
        "changing_lists::a_folder_without_digests_is_not_exact",
    ),
    bug(
        "a dry run ends well where the run is refused", "mirror/forecast",
        "check_removals(len(self.going), ",
        "check_removals(0, ",
        "dry_run::a_dry_run_of_a_refused_removal_has_the_status_of_the_run",
    ),
    bug(
        "nothing looks whether there is room", "mirror/engine",
        "self.folder.check_room(lambda:",
        "(lambda:",
        "dry_run::a_run_without_room_fetches_nothing",
    ),
]

OF_LISTS = [
    bug(
        "the first of three changes of a moment is lost", "resync/lenient",
        "{*before.others, *later.others} | (set()",
        "{*later.others} | (set()",
        "change_lists::right_bytes_are_taken_whichever_of_three_changes_of_one_moment_lists_them",
    ),
    bug(
        "the moments of parts are not read", "resync/lenient",
        "in (head, *parts)]",
        "in (head,)]",
        "change_lists::an_index_with_a_later_moment_than_its_parts_loses_no_change",
    ),
    bug(
        "the last change of a document is taken for the newest", "resync/lenient",
        "        return LatestChanges(newest, ",
        "        newest = dated[-1][0] if due else since\n        return LatestChanges(newest, ",
        "change_lists::an_unsorted_change_list_is_taken_in_the_order_of_its_moments",
    ),
    bug(
        "a vague moment takes a folder back", "resync/lenient",
        "newest = moment if moment.first > newest.first else newest",
        "newest = moment",
        "change_lists::a_vague_moment_does_not_take_the_folder_back",
    ),
    bug(
        "the end of a moment is compared with the clock", "resync/lenient",
        "if moment.first > latest_instant():",
        "if moment.end > latest_instant():",
        "documents::the_current_year_month_and_day_are_moments_of_the_past",
    ),
    bug(
        "a byte order mark is no front of a document", "resync/sitemaps",
        r'rb"(?:\xef\xbb\xbf)?(?:\s+|<',
        r'rb"(?:\s+|<',
        "documents::a_sitemap_alone_is_found_whatever_comes_before_its_root",
    ),
    bug(
        "a packed body is stored packed", "mirror/bodies",
        "if coding in CODINGS:",
        "if coding in ():",
        "styles::a_style_is_mirrored_from_its_first_run_to_a_repair",
    ),
    bug(
        "the older list of two sets counts", "mirror/lenient_aims",
        "else is_earlier(at, self.dates[name])):",
        "else False):",
        "styles::a_style_is_mirrored_from_its_first_run_to_a_repair",
    ),
    bug(
        "a resource that moves to another host is removed", "mirror/lenient_aims",
        "if end_of(name) in reading.elsewhere or is_unread:",
        "if is_unread:",
        "deviations::an_entry_that_is_passed_over_deletes_nothing",
    ),
    bug(
        "a dead resource is forgotten", "mirror/engine",
        "missing=missing or None",
        "missing=None",
        "deviations::a_dead_resource_is_named_and_asked_for_by_each_run_until_it_comes",
    ),
    bug(
        "an indented address is none", "resync/lenient",
        "text = listed.loc.strip()",
        "text = listed.loc",
        "documents::indented_entries_are_read",
    ),
    bug(
        "a body without the end of a head is a head", "resync/pages",
        'self.is_over = self.is_over or tag == "body"',
        "self.is_over = self.is_over",
        "documents::a_link_in_the_body_of_a_page_is_not_followed",
    ),
    bug(
        "a link to another host above a list ends the run", "resync/discovery",
        "if address is None or not self.asking.hosts.allow(address):",
        "if address is None:",
        "discovery::a_list_whose_up_link_leads_to_another_host_is_mirrored_alone",
    ),
    bug(
        "links of a page are joined to the address before its redirect", "resync/discovery",
        "else self.of_page(place, answer)",
        "else self.of_page(address, answer)",
        "discovery::links_of_a_redirected_page_are_relative_to_where_it_lies",
    ),
    bug(
        "a list that is named twice counts twice", "resync/discovery",
        "return list(dict.fromkeys(lists))",
        "return lists",
        "discovery::a_list_that_is_named_twice_counts_once",
    ),
]

OF_DUMPS = [
    bug(
        "the place of an archive's directory is taken for its length", "resync/dumps",
        "int.from_bytes(end[-10:-6], \"little\") > LONGEST_DIRECTORY",
        "int.from_bytes(end[-6:-2], \"little\") > LONGEST_DIRECTORY",
        "dumps::an_archive_of_9_mib_is_taken",
    ),
    bug(
        "a dump is as of its latest archive", "resync/dumps",
        "return earliest(",
        "return (lambda moments: max(filter(None, moments), key=lambda moment: moment.first, default=None))(",
        "dumps::archives_of_two_moments_lose_no_change",
    ),
    bug(
        "the digest of an archive is not compared", "resync/dumps",
        "if not measure.fits(facts):",
        "if has_length(facts) and measure.size != length_of(facts):",
        "dumps::an_archive_of_another_day_than_listed_is_not_taken",
    ),
]

OF_REPORTS = [
    bug(
        "a lost #known-later leaves #known", "mirror/catalogue",
        "self.folder.tree.remove(KNOWN)",
        "pass",
        "check::right_files_are_not_called_damaged_when_notes_are_lost",
    ),
    bug(
        "a body of equal length is no change", "mirror/events",
        "row.length, row.sha256) for row in",
        "row.length) for row in",
        "on_change::a_body_of_equal_length_without_a_moment_is_reported",
    ),
    bug(
        "lines that wait are overwritten", "mirror/events",
        "shutil.copyfileobj(earlier, file, PIECE)",
        "pass",
        "on_change::changes_that_a_failing_command_left_come_again_before_newer_ones",
    ),
    bug(
        "lines are not synced", "cli/files",
        "            os.fsync(number)\n",
        "",
        "kills::reports_are_synced_before_they_get_their_name",
    ),
    bug(
        "check refuses the address of a Source Description", "mirror/sources",
        'url.rstrip("/").removesuffix(DESCRIPTION_PATH)',
        'url.rstrip("/")',
        "check::a_source_may_be_named_by_its_description",
    ),
    bug(
        "damage of a file that the lists dropped is behind", "mirror/check",
        "is_behind = row is not None and is_as_known(folder, row)",
        "is_behind = row is not None",
        "check::damage_of_a_file_that_the_lists_dropped_is_named",
    ),
    bug(
        "a length counts as a digest", "mirror/check",
        "all(map(has_digest, choices))",
        "all(facts[0] for facts in choices)",
        "check::damage_that_keeps_the_length_is_named",
    ),
    bug(
        "a pattern turned is the same one", "resync/filters",
        "words = [[rule.pattern, rule.is_taking] for rule in self.rules]",
        "words = [[rule.pattern] for rule in self.rules]",
        "filters::a_run_with_other_patterns_takes_what_they_let_in",
    ),
    bug(
        "patterns in another order are the same ones", "resync/filters",
        "words = [[rule.pattern, rule.is_taking] for rule in self.rules]",
        "words = sorted([rule.pattern, rule.is_taking] for rule in self.rules)",
        "filters::a_run_with_other_patterns_takes_what_they_let_in",
    ),
]
