"""Planted bugs of `ropepeach` that tests of operations/tests/tools notice. __init__.py has the form of a row."""
from __future__ import annotations

from tests.planted.plants import Bug


def bug(what: str, file: str, old: str, new: str, test: str) -> Bug:
    """Return a bug in a file of the command, and the test FILE::NAME that must notice it."""
    return Bug(what, f"operations/ropepeach/{file}", old, new,
               f"operations/tests/tools/test_{test.replace('::', '.py::test_')}")


DISKS, CHANGING = "look::disks_of_the_tables_read_as_the_other_reader_reads_them", "looked_at::a_file_that_changes"
NAMED = "installed::a_program_has_the_name_of_its_package"
WRONG_PAGE = "installed::a_wrong_page_makes_no_program_proved"
OF_LOOK = [
    bug("a page has a block too many", "disk/formats.py", "blocks == blocks_of(length)",
        "blocks == length // BLOCK + 1", DISKS),
    bug("the older root counts", "disk/file.py", "return max(opened)", "return min(opened)",
        "look::random_disks_read_as_the_other_reader_reads_them"),
    bug("a page may have any bytes", "disk/file.py", "hashlib.sha256(data).digest() == sha256", "sha256", DISKS),
    bug("moments are not checked", "disk/rules.py", "    check_moments(source.header)\n", "", DISKS),
    bug("blocks are not checked", "disk/rules.py", "check_blocks(source.extents", "check_blocks([]", DISKS),
    bug("changes are not checked", "disk/rules.py", "    check_changes(source.header, source.changes)\n", "", DISKS),
    bug("names are not checked", "disk/formats.py", "LAWFUL_NAME.fullmatch(name)", "name", DISKS),
    bug("the last free blocks do not count", "disk/room.py",
        " + ([BlockRun(behind, total - behind)] if total > behind else [])", "", DISKS),
    bug("a file that changes is read once", "disk/file.py", "SLOT_PAUSE = 20, 3", "SLOT_PAUSE = 1, 3",
        f"{CHANGING}_during_a_look_is_read_whole"),
    bug("an offset loses its highest bit", "disk/file.py", "1 << 24), at)", "1 << 24), at & 0x7FFF_FFFF)",
        "far::all_blocks_and_resources_of_a_far_disk_are_counted"),
    bug("any page makes a program proved", "disk/installed.py", "LARGEST_PAGE)) == digest", "LARGEST_PAGE))",
        WRONG_PAGE),
    bug("the digest before packing counts", "disk/installed.py", "program in the package: +",
        "program as it was built: +", NAMED),
    bug("a digest may be in upper case", "disk/installed.py", 'DIGEST.search(page.decode(errors="replace"))',
        'DIGEST.search(re.sub("[0-9A-F]{64}", lambda found: found[0].lower(), page.decode(errors="replace")))',
        WRONG_PAGE),
    bug("a program of any length is proved", "disk/installed.py", 'content if len(content) <= size else b""', "content",
        "installed::an_empty_or_too_long_program_is_not_proved"),
    bug("the plain program is called proved", "disk/installed.py", '"the plain build, not proved"', '"proved"', NAMED),
    bug("the plain program has no package", "disk/installed.py",
        ', "ropepeach-plain": "the plain build, not proved"}', "}", NAMED),
    bug("a program is found where there is none", "disk/installed.py", 'shutil.which(PROGRAM) or ""',
        'shutil.which(PROGRAM) or "/bin/true"', NAMED),
]
LOCKS, ROOM = "why::the_holder_of_a_lock_is_found", "why::a_sparse_file_needs_room_for_the_longest_command"
OF_WHY = [
    bug("an old line of the table of locks counts", "admin/processes.py", "if self.has_open(number, is_file):",
        "if True:", f"{LOCKS}_in_the_table_of_locks"),
    bug("a lock may be of another device", "admin/processes.py",
        "os.makedev(int(major, 16), int(minor, 16)) == file.st_dev", "True", f"{LOCKS}_in_the_table_of_locks"),
    bug("all lacking bytes have to be free", "admin/why.py", "free < min(lacking, COMMAND)", "free < lacking", ROOM),
    bug("no bytes have to be free", "admin/why.py", "free < min(lacking, COMMAND)", "free < 0", ROOM),
]
STORE, FENCE, COPIES = "admin/takeover_store.py", "a_missing_or_short_fence_is_refused", "missing_copies_are_refused"
OF_TAKEOVER = [
    bug(what, file, old, new, f"takeover::{test}") for what, file, old, new, test in [
        ("a fence may end soon", STORE, "LASTING = datetime.timedelta(days=1)", "LASTING = datetime.timedelta(days=-1)",
         FENCE),
        ("sessions are not checked", STORE, "self.look_at_sessions(other)", "pass", FENCE),
        ("sessions are not checked as planned", STORE, "self.look_at_sessions(other)",
         "self.look_at_sessions('' if is_planned else other)", "a_planned_takeover_needs_no_fence"),
        ("a fence is not needed", STORE, "if not is_planned and not whole:", "if False:", FENCE),
        ("a finished takeover says nothing of the fence", STORE, "is fenced until {whole", "is fenced {whole",
         "finished_steps_are_printed_and_nothing_is_changed"),
        ("a group may have any state", STORE, "words & BAD_STATES or is_planned", "is_planned", COPIES),
        ("one copy is enough", STORE, "COPIES, WRITTEN = 3, 2", "COPIES, WRITTEN = 1, 2", COPIES),
        ("a write on one copy is enough", STORE, "COPIES, WRITTEN = 3, 2", "COPIES, WRITTEN = 3, 1", COPIES),
        ("a mount may have any setting", STORE, "in FUSE_SETTINGS.items()", "in ()", "a_wrong_mount_is_refused"),
        ("a mount of the kernel may have any option", STORE, "in KERNEL_OPTIONS.items()", "in ()",
         "options_of_a_kernel_mount_are_checked"),
        ("any file system is a CephFS", STORE, "if self.kind not in (FUSE, KERNEL):", "if not self.kind:",
         "a_wrong_mount_is_refused"),
        ("no step is retried", "admin/takeover.py", "if time.monotonic() >= end:", "if True:",
         "a_store_without_an_answer_is_reported_after_the_wait"),
        ("the old file is not kept", "admin/takeover.py",
         "os.link(name, old_name, src_dir_fd=folder, dst_dir_fd=folder, follow_symlinks=False)", "pass",
         "a_copy_replaces_the_file_and_the_old_file_is_kept"),
        ("the copy does not replace the file", "admin/takeover.py",
         "os.rename(made, name, src_dir_fd=folder, dst_dir_fd=folder)", "pass",
         "a_copy_replaces_the_file_and_the_old_file_is_kept"),
        ("a link gets the owner", "admin/takeover.py", "os.O_RDWR | os.O_NOFOLLOW", "os.O_RDWR",
         "a_swapped_copy_gets_no_owner"),
        ("a copy is not compared", "admin/takeover.py", "arguments.program, path)) != wanted:",
         "arguments.program, path)) == '':", "a_copy_that_differs_is_not_used"),
    ]
]
KILLED, BACKUP = "new_completes_after_a_kill_at_any_step", "a_backup_is_whole_or_has_no_name"
RESTORE = "restore_serves_the_backup_and_keeps_the_old_file"
OF_NEW = [
    bug(what, f"admin/{file}.py", old, new, f"new::{test}") for what, file, old, new, test in [
        ("a file has its name at once", "new", 'fresh, folder = f"{file}.new"', 'fresh, folder = f"{file}"', KILLED),
        ("the room of a file is not reserved", "new", 'as_user(user, "fallocate", "--length", str(size), fresh)',
         'as_user(user, "true")', "new_makes_a_source"),
        ("nginx keeps the parts of a removed source", "new", "*cache_steps(place.cache), ", "",
         "a_source_with_the_name_of_a_removed_one_has_an_empty_cache"),
        ("a size of 0 is the usual one", "new", "else arguments.size\n", "else arguments.size or DEFAULT_SIZE\n",
         "wrong_arguments_are_refused_before_any_change"),
        ("a closed source has near addresses", "new", "is_guarded else arguments.near", "False else arguments.near",
         "new_closes_the_port_to_other_users"),
        ("an older source is closed", "new", " or place.known() is not None", "", "new_closes_the_port_to_other_users"),
        ("a file of a killed run stays", "new", 'as_user(user, "rm", "-f", fresh)', 'as_user(user, "true")', KILLED),
        ("a refused site stays", "new", 'undo=("rm", link, file)', 'undo=("rm", file)',
         "a_site_that_nginx_refuses_is_removed"),
        ("nginx does not test a site", "new", '("nginx", "-t")', '("true",)', "a_site_that_nginx_refuses_is_removed"),
        ("a new source may have any base", "new", "if base not in (None, arguments.base)", "if False",
         "wrong_arguments_are_refused_before_any_change"),
        ("a backup does not let the program continue", "backup", 'kill -CONT "$1"', "true", BACKUP),
        ("a backup is not verified", "backup", "if damaged:", "if False:", BACKUP),
        ("a restore does not keep the old file", "restore", 'as_user(USER, "ln", "-T", str(file), old_file)',
         'as_user(USER, "true")', RESTORE),
        ("a restored backup may have any base", "restore", "if old_base not in (None, base)", "if False", RESTORE),
    ]
]
OF_WRITES = [
    bug(what, file, old, new, f"writes::{test}") for what, file, old, new, test in [
        ("a file is opened through a link", "cli/files.py", " | os.O_NOFOLLOW", "",
         "every_file_that_a_command_writes_is_a_new_file_of_an_open_folder"),
        ("a new file may be there", "cli/files.py", "os.O_CREAT | os.O_EXCL", "os.O_CREAT",
         "root_writes_only_new_files_of_open_folders"),
        ("a copy is made by its name", "admin/backup.py", 'str(source), f"/proc/self/fd/{copy}")',
         'str(source), os.readlink(f"/proc/self/fd/{copy}"))',
         "a_backup_in_the_folder_of_another_user_writes_through_no_link"),
        ("a file of a failed write stays", "cli/files.py", "            os.unlink(fresh, dir_fd=above)\n        raise",
         "            pass\n        raise", "a_failed_write_leaves_the_old_file_and_no_other"),
    ]
]
OF_BOUNDS = [
    bug(what, file, old, new, test) for what, file, old, new, test in [
        ("a certificate may put a name of encoded dots", "admin/site_text.py", '{NO_DOTS}/resource', "/resource",
         "changed_by::a_certificate_changes_only_its_names"),
        ("all archives of a dump are kept", "resync/dumps.py", "self.kept + size <= MOST_KEPT", "True",
         "any_dumps::one_archive_of_a_dump_is_held_at_a_time"),
        ("a document may have any number of members", "resync/sitemaps.py", "in range(MOST_MEMBERS)",
         "in range(10 ** 9)", "any_reading::a_document_that_unpacks_to_too_much_or_not_at_all_is_refused"),
    ]
]
ABBREVIATED, VERSION = "options_are_not_abbreviated", "the_version_is_that_of_the_version_file"
LOUD, COMPLETION = "verbose_adds_requests_and_quiet_keeps_errors", "a_shell_completes_at_the_terminal"
OF_LINE = [
    bug(what, file, old, new, f"line::{test}") for what, file, old, new, test in [
        ("a command does nothing", "cli/command.py", "return dispatch(", "return 0 and (", VERSION),
        ("an option may be abbreviated", "cli/parser.py", "allow_abbrev=False", "allow_abbrev=True", ABBREVIATED),
        ("wrong arguments of health are critical", "cli/subcommands.py", 'written",\n    }, Health.UNKNOWN),',
         'written",\n    }, Health.CRITICAL),', ABBREVIATED),
        ("an example has a wrong option", "cli/subcommands.py", '"--put 4096', '"--none 4096',
         "examples_of_help_are_valid"),
        ("a status has another meaning", "cli/subcommands.py", '"the file holds a source"', '"it holds a source"',
         "a_manual_page_has_the_options_and_statuses"),
        ("a command has another line of help", "cli/subcommands.py", '"grow", "move', '"grow", "bring',
         "a_manual_page_has_the_options_and_statuses"),
        ("a command has no page", "cli/subcommands.py", 'declared("remove",', 'declared("removed",',
         "the_manual_has_a_page_for_every_command"),
        ("no similar word is suggested", "cli/parser.py", "get_close_matches(word, words, n=1)", "()",
         "a_wrong_word_gets_a_suggestion"),
        ("a missing folder has another status", "fill/files.py", 'Unusable(f"a folder cannot',
         'Fault(f"a folder cannot',
         "a_missing_file_or_folder_has_status_3"),
        ("options before a command are dropped", "cli/command.py", "parse_args([*front, *words[1:]])",
         "parse_args(words[1:])", "output_options_may_come_first"),
        ("a parser needs libcurl", "http/client.py", "import argparse\n", "import argparse\nimport pycurl\n",
         "help_needs_no_package_of_debian"),
        ("help is not wrapped", "cli/parser.py", "paragraphs(text, width).splitlines(", "text.splitlines(",
         "lines_of_help_fit_the_terminal"),
        ("another version is printed", "cli/parser.py", 'version=f"ropepeach {__version__}"',
         'version="ropepeach 0.0.9"', VERSION),
        ("a request has no version", "http/handle.py", 'f"ropepeach/{__version__}"', '"ropepeach"', VERSION),
        ("the object of JSON has no messages", "cli/output.py", 'current.note("message",', 'current.note("none",',
         "json_prints_one_object"),
        ("the object of JSON has no status", "cli/output.py", '"status": int(status),', '"status": 0,',
         "json_prints_an_object_of_a_failed_run"),
        ("--verbose shows no requests", "cli/output.py", "write_line(MessageLevel.DETAIL, text)", "pass", LOUD),
        ("--quiet shows all messages", "cli/output.py", "if level not in current.levels:",
         "if level == MessageLevel.DETAIL not in current.levels:", LOUD),
        ("--bwlimit does not wait", "http/limits.py", "if self.rate and size:", "if False:",
         "bwlimit_bounds_the_bytes_per_second"),
        ("every process has the whole rate", "http/limits.py", "max(self.next.value, time.monotonic())",
         "time.monotonic()", "processes_share_the_bytes_per_second"),
    ]
] + [
    Bug(f"{shell} completes no words", f"operations/install/{file}", "ropepeach complete", "ropepeach none",
        f"operations/tests/tools/test_line.py::test_{COMPLETION}[{shell}]")
    for shell, file in (("bash", "ropepeach.bash"), ("zsh", "_ropepeach"))]
FILTERS, KNOWN = "resync/filters.py", "known_patterns_take_the_files_that_rsync_takes"
EXCLUDED, MIRRORED = "fill_neither_puts_nor_deletes_excluded_files", "a_mirror_has_the_included_files"
OF_PATTERNS = [
    bug(what, file, old, new, f"patterns::{test}") for what, file, old, new, test in [
        ("the last rule decides", FILTERS, "for rule in self.rules if", "for rule in reversed(self.rules) if",
         "random_patterns_take_the_files_that_rsync_takes"),
        ("an excluded folder is taken", FILTERS, "return self.folders[path]", "return True", KNOWN),
        ("a star matches a slash", FILTERS, '(b"[^/]*" + others[-1]', '(b".*" + others[-1]', KNOWN),
        ("a question mark matches a slash", FILTERS, 'parts[-1][-1] += b"[^/]"', 'parts[-1][-1] += b"."', KNOWN),
        ("a class of characters is literal", FILTERS, 'class_expression(piece["items"], bool(piece["negation"]))',
         're.escape(b"[" + piece["items"] + b"]")', KNOWN),
        ("a search tries every way", FILTERS, 'return text + (b"[^/]*"',
         'return text.replace(b"(?>", b"(?:") + (b"[^/]*"', "no_name_makes_a_search_slow"),
        ("excluded resources are deleted", "fill/plan.py", "        resources = self.filtered(resources)\n", "",
         EXCLUDED),
        ("excluded files are put", "fill/files.py", "not rules or self.filters", "True or self.filters", EXCLUDED),
        ("a mirror has excluded files", "mirror/aims.py", "if filters.rules else wanted", "if False else wanted",
         MIRRORED),
        ("a mirror of any source has excluded files", "mirror/lenient_aims.py",
         "wanted = self.filtered(merged.wanted)", "wanted = merged.wanted",
         "a_mirror_of_any_source_has_the_included_files"),
        ("a state has no patterns", "mirror/state.py", '"filters": self.filters or None', '"filters": None',
         MIRRORED),
        ("a mirror keeps its first patterns", "mirror/aims.py", "filters=self.patterns())",
         "filters=self.state.filters)", MIRRORED),
        ("check takes any patterns", "mirror/check.py", "part.state.filters != Filters(arguments.rules).digest()",
         "False", "check_takes_the_patterns_of_the_mirror"),
        ("a rule of another kind is a pattern", FILTERS, 'not text or text == "!" or text.startswith(("+ ", "- "))',
         "False", "rules_of_rsync_of_other_kinds_are_refused"),
    ]
]
AT_ONCE, MOVES = "at_most_jobs_processes_work_at_once", "grow_moves_at_most_max_delete_resources"
OF_CAREFUL = [
    bug(what, f"collection/{file}.py", old, new, f"careful::{test}") for what, file, old, new, test in [
        ("all processes work at once", "workers", "self.jobs = jobs or self.count", "self.jobs = self.count", AT_ONCE),
        ("one process works at a time", "workers", "self.jobs = jobs or self.count", "self.jobs = 1", AT_ONCE),
        ("a process that ended has no answer", "workers", "return ENDED\n", "return None\n", AT_ONCE),
        ("grow moves any number of resources", "grow", "if limit is not None and count > limit:", "if False:", MOVES),
        ("grow moves a resource too many", "grow", "if limit is not None and count > limit:",
         "if limit is not None and count > limit + 1:", MOVES),
        ("a dry run writes files", "show", "name)}\")\n        return\n", "name)}\")\n", "a_dry_run_writes_no_file"),
        ("a command has no --jobs", "show", "    add_option_of_jobs(parser)\n", "",
         "commands_have_the_options_of_careful_runs"),
    ]
]
OF_IMPORTS = [
    bug(what, file, "import argparse\n", f"import argparse\nimport {module}\n", f"imports::{test}")
    for what, file, module, test in [
        ("why imports many modules", "admin/why.py", "csv, difflib, plistlib, statistics",
         "no_run_imports_modules_without_use"),
        ("look imports a database", "disk/look.py", "sqlite3", "no_run_imports_modules_without_use"),
        ("look imports the package of fill", "disk/look.py", "ropepeach.fill.files",
         "a_subcommand_imports_its_own_package"),
    ]
]
CAPACITY = "health/capacity.py"
OF_FULL = [
    bug(what, file, old, new, f"full::{test}") for what, file, old, new, test in [
        ("a nearly full source is healthy", CAPACITY, "WARNING, CRITICAL = 90, 98", "WARNING, CRITICAL = 91, 99",
         "nearly_50000_resources_are_reported"),
        ("blocks that only root may use are free", CAPACITY, "system.f_bavail", "system.f_bfree",
         "a_nearly_full_file_system_is_reported"),
        ("the longest free run does not count", CAPACITY, "        if longest:", "        if False:",
         "a_nearly_full_file_is_reported"),
        ("a fresh source was verified too long ago", CAPACITY, "filter(None, moments)", "moments",
         "a_file_that_was_never_verified_counts_from_its_first_change"),
    ]
]
NAMED_FILE = "cli/named.py"
OF_NAMED = [
    bug("a source precedes a file of its name", NAMED_FILE, "settings is not None and os.path.lexists(text)", "False",
        "named::an_existing_file_precedes_the_source"),
    bug("a dry run publishes", "fill/publish.py", "elif arguments.dry_run:", "elif False:",
        "named::publish_publishes_what_changed"),
    bug("the best state of several sources counts", "health/status.py", "max(verdicts)", "min(verdicts)",
        "named::status_reports_every_source"),
    bug("health of a named source has no file", "health/command.py", "arguments.file or subject.file",
        'arguments.file or ""', "named::a_name_stands_for_the_source"),
]
