"""Planted bugs of the engine of the mirror and of its transfers; most passed every earlier check."""
from __future__ import annotations

from tests.planted.bugs.sources import bug

OF_ENGINE = [
    bug(
        "a later pass of a Ropepeach takes excluded names", "mirror/aims",
        "wanted = self.filtered(wanted_by(changes.entries))\n        return wanted",
        "wanted = wanted_by(changes.entries)\n        return wanted",
        "filters::a_later_pass_takes_no_excluded_file",
    ),
    bug(
        "an increment of a Ropepeach takes excluded names", "mirror/aims",
        "wanted = self.filtered(wanted_by(changes.entries))\n                return",
        "wanted = wanted_by(changes.entries)\n                return",
        "filters::an_increment_of_an_own_source_takes_no_excluded_file",
    ),
    bug(
        "an increment forgets which entries were passed over", "mirror/lenient_aims",
        "collections.Counter(self.passed()) | reading.passed",
        "reading.passed",
        "limits::an_increment_does_not_forget_that_entries_were_passed_over",
    ),
    bug(
        "files that stay are forgotten", "mirror/engine",
        " and row.place not in aim.spared]",
        "]",
        "limits::a_file_that_stays_is_still_known",
    ),
    bug(
        "#known-later goes before #known has its rows", "mirror/catalogue",
        "        known.save(self.folder, KNOWN)\n        with contextlib.suppress(FileNotFoundError):\n"
        "            self.folder.tree.remove(LATER)\n",
        "        with contextlib.suppress(FileNotFoundError):\n            self.folder.tree.remove(LATER)\n"
        "        known.save(self.folder, KNOWN)\n",
        "one_engine::rows_of_increments_are_in_one_of_two_files_at_any_kill",
    ),
    bug(
        "a baseline that is refused has begun", "mirror/engine",
        "        self.check_removals(aim.wanted)\n        self.promise(aim)\n",
        "        self.promise(aim)\n        self.check_removals(aim.wanted)\n",
        "changing_lists::a_refused_baseline_leaves_the_position",
    ),
    bug(
        "of two sets the later one counts", "mirror/lenient_aims",
        "if not is_older(entry, wanted.get(name)):",
        "if wanted.get(name) is not entry:",
        "changing_lists::of_two_sets_the_newer_entry_of_a_resource_counts",
    ),
    bug(
        "a damaged file is asked for by a condition", "mirror/engine",
        "known = row if row is not None and self.is_as_known(entry, row) else None",
        "known = row",
        "limits::a_file_that_is_not_as_it_came_is_asked_for_without_a_condition",
    ),
    bug(
        "a signal loses fetched files", "mirror/engine",
        "        except BaseException:\n",
        "        except Fault:\n",
        "one_engine::a_stopped_run_keeps_what_it_fetched",
    ),
    bug(
        "a second signal interrupts the end of a run", "cli/stops",
        "        if not self.is_over:\n",
        "        if number:\n",
        "stops::many_signals_up_to_the_end_of_the_process_are_as_one",
    ),
    bug(
        "the sources of a collection are killed by a signal", "collection/workers",
        "                process.terminate()\n",
        "                process.kill()\n",
        "stops::signal_ends_the_run_of_a_collection_and_keeps_what_it_fetched",
    ),
    bug(
        "a run goes on without what was known", "mirror/lenient_aims",
        "if self.catalogue.is_lost or self.folder.until",
        "if self.folder.until",
        "check::a_run_with_lost_notes_of_another_source_is_a_baseline",
    ),
    bug(
        "a later pass promises nothing", "mirror/engine",
        "            self.check_removals(due)\n            self.promise(aim)\n",
        "            self.check_removals(due)\n",
        "kills::a_kill_in_a_later_pass_loses_nothing_where_the_source_goes_back",
    ),
    bug(
        "a dry run with other patterns begins a baseline", "mirror/aims",
        " and not self.is_dry:",
        ":",
        "dry_run::a_dry_run_with_other_patterns_leaves_the_position",
    ),
    bug(
        "a baseline that only forgets is not saved", "mirror/engine",
        "self.save(is_end=True)",
        "self.save()",
        "check::a_file_that_went_here_and_at_the_source_is_not_missing",
    ),
    bug(
        "a resource that the lists dropped meanwhile is expected", "mirror/lenient_aims",
        "            due |= {name: None for",
        "            _ = {name: None for",
        "changing_lists::a_resource_that_goes_during_a_baseline_is_no_fault",
    ),
]

OF_TRANSFERS = [
    bug(
        "the condition of one file is sent for the next one", "http/handle",
        'request.method != "GET" or self.fields != request.fields:',
        'request.method != "GET" or self.fields is None or (request.fields and self.fields != request.fields):',
        "limits::a_condition_goes_to_its_own_address_only",
    ),
    bug(
        "a route that resets its handle drops the URL", "http/handle",
        "            self.take_route(route)\n        # (a route may reset the handle, its URL too)\n"
        "        self.curl.setopt(pycurl.URL, url)\n",
        "            self.curl.setopt(pycurl.URL, url)\n            self.take_route(route)\n"
        "        else:\n            self.curl.setopt(pycurl.URL, url)\n",
        "one_engine::a_certificate_is_for_the_source_alone",
    ),
    bug(
        "each host gets the certificate", "http/transfers",
        "self.certificate if job.origin == self.own else None",
        "self.certificate",
        "one_engine::a_certificate_is_for_the_source_alone",
    ),
    bug(
        "each piece of a body is counted with those before it", "http/transfers",
        "self.limits.take(count)",
        "self.limits.take(job.size)",
        "limits::a_body_in_many_pieces_is_counted_once",
    ),
    bug(
        "Retry-After is not read", "http/transfers",
        "pause if asked is None else asked",
        "pause",
        "limits::the_source_says_when_to_ask_again",
    ),
    bug(
        "documents have the default --max-time", "http/client",
        "arguments.certificate, arguments.max_time, limits)",
        "arguments.certificate, limits=limits)",
        "limits::an_answer_takes_no_longer_than_max_time",
    ),
    bug(
        "libcurl sends an unsafe request again", "http/handle",
        "int(not request.is_safe and not request.body)",
        "0",
        "requests::an_unsafe_request_is_not_sent_again_where_a_kept_connection_breaks",
    ),
    bug(
        "libcurl sends the body of an unsafe request again", "http/handle",
        "            self.curl.setopt(pycurl.UPLOAD, 1)\n"
        "            self.curl.setopt(pycurl.READFUNCTION, io.BytesIO(request.body or b\"\").read)\n"
        "            self.curl.setopt(pycurl.INFILESIZE_LARGE, len(request.body or b\"\"))\n",
        "            self.curl.setopt(pycurl.POSTFIELDS, request.body or b\"\")\n",
        "requests::an_unsafe_request_is_not_sent_again_where_a_kept_connection_breaks",
    ),
    bug(
        "an unsafe request is sent again after 502", "http/transfers",
        "is_sent=response.status != UNAVAILABLE",
        "is_sent=False",
        "requests::an_unsafe_request_is_sent_again_after_503_only",
    ),
    bug(
        "an unsafe request is sent again after 429", "http/transfers",
        "(response.status == TOO_MANY_REQUESTS and job.transfer.is_safe)",
        "response.status == TOO_MANY_REQUESTS",
        "requests::an_unsafe_request_is_sent_again_after_503_only",
    ),
    bug(
        "an unsafe request is sent again after a reset", "http/transfers",
        "failure.is_sent and not job.transfer.is_safe",
        "failure.is_final and not job.transfer.is_safe",
        "requests::an_unsafe_request_is_not_sent_again_where_a_kept_connection_breaks",
    ),
    bug(
        "an answer that was cut has its first bytes twice", "http/handle",
        "        self.lines.clear()\n        self.taken()\n",
        "        self.lines.clear()\n",
        "requests::an_answer_that_was_cut_is_whole_after_a_retry",
    ),
    bug(
        "dots of a path are resolved", "http/handle",
        "    pycurl.PATH_AS_IS: 1,\n",
        "",
        "documents::a_path_with_dots_is_asked_for_unchanged",
    ),
    bug(
        "a body may come in any encoding", "http/handle",
        ', "Accept-Encoding": "identity"}',
        "}",
        "documents::bodies_are_asked_for_without_an_encoding",
    ),
]
