"""Planted bugs in operations/install/ and in the packages (operations/tests/system)."""
from __future__ import annotations

from tests.planted.plants import Bug


def bug(what: str, file: str, old: str, new: str, test: str) -> Bug:
    """Return a bug in a file, and the test FILE::NAME that must notice it."""
    return Bug(what, file, old, new, f"operations/tests/system/test_{test.replace('::', '.py::test_')}")


OF_UNITS_AND_SITE = [
    bug(
        "the manual page has another refusal", "operations/install/rs_source.8",
        ".It TooManyChanges No (507)",
        ".It TooManyResources No (507)",
        "install::the_manual_page_names_every_command_refusal_and_exit_status",
    ),
    bug(
        "the manual page has an unknown macro", "operations/install/rs_source.8",
        ".Sh CAVEATS",
        ".Qz CAVEATS",
        "install::mandoc_finds_nothing_in_the_manual_pages",
    ),
    bug(
        "the unit of a source has a misspelled setting", "operations/install/ropepeach@.service",
        "ProtectSystem=strict",
        "ProtectSystem=stricter",
        "install::systemd_finds_the_units_correct_and_little_exposed",
    ),
    bug(
        "the unit of a source has every capability", "operations/install/ropepeach@.service",
        "CapabilityBoundingSet=\n",
        "CapabilityBoundingSet=~\n",
        "install::systemd_finds_the_units_correct_and_little_exposed",
    ),
    bug(
        "the timer of the verification has a time in words", "operations/install/ropepeach-verify@.timer",
        "Sun 04:00",
        "Sunday at four",
        "install::systemd_finds_the_units_correct_and_little_exposed",
    ),
    bug(
        "the unit of a source blocks calls on files", "operations/install/ropepeach@.service",
        "SystemCallFilter=~@privileged @resources",
        "SystemCallFilter=~@privileged @resources @file-system",
        "install::the_filter_of_the_unit_passes_each_call_of_a_server",
    ),
    bug(
        "a failed verification succeeds", "operations/install/verify",
        "*) exit 1 ;;",
        "*) ;;",
        "install::the_verification_fails_on_a_damaged_body",
    ),
    bug(
        "an empty verification succeeds", "operations/install/verify",
        "\"0 verified \"*)",
        "\"0 \"*)",
        "install::the_verification_fails_on_a_damaged_body",
    ),
    bug(
        "publish always publishes", "operations/ropepeach/fill/publish.py",
        "if is_published:",
        "if False:",
        "install_units::publish_skips_a_publication_without_changes",
    ),
    bug(
        "publish never publishes", "operations/ropepeach/fill/publish.py",
        "if is_published:",
        "if True:",
        "install_units::publish_skips_a_publication_without_changes",
    ),
    bug(
        "the options of the fill unit are one word", "operations/install/ropepeach-fill@.service",
        "fill $OPTIONS ${FOLDER}",
        "fill ${OPTIONS} ${FOLDER}",
        "install_units::the_fill_unit_fills_a_source",
    ),
    bug(
        "the folder of the fill unit is split into words", "operations/install/ropepeach-fill@.service",
        "fill $OPTIONS ${FOLDER}",
        "fill $OPTIONS $FOLDER",
        "install_units::the_fill_unit_fills_a_source",
    ),
    bug(
        "the options of the mirror unit are one word", "operations/install/ropepeach-mirror@.service",
        "mirror $OPTIONS ${SOURCE}",
        "mirror ${OPTIONS} ${SOURCE}",
        "install_units::the_mirror_unit_mirrors_a_source",
    ),
    bug(
        "the mirror unit has no options", "operations/install/ropepeach-mirror@.service",
        "mirror $OPTIONS ${SOURCE}",
        "mirror ${SOURCE}",
        "install_units::the_mirror_unit_mirrors_a_source",
    ),
    bug(
        "the mirror unit has no default for its options", "operations/install/ropepeach-mirror@.service",
        "Environment=OPTIONS=\n",
        "",
        "install_units::the_mirror_unit_mirrors_a_source",
    ),
    bug(
        "the unit of the verification blocks calls on processes", "operations/install/ropepeach-verify@.service",
        "SystemCallFilter=~@privileged @resources",
        "SystemCallFilter=~@privileged @resources @process",
        "install::the_filter_of_the_unit_passes_each_call_of_a_verification",
    ),
    bug(
        "the site takes shorter bodies", "operations/install/ropepeach.nginx",
        "client_max_body_size      16m",
        "client_max_body_size      15m",
        "install::the_longest_body_passes_and_one_byte_more_is_refused",
    ),
    bug(
        "the site asks the source for decoded names", "operations/install/ropepeach.nginx",
        "map $request_uri $rp_source_asked",
        "map $uri $rp_source_asked",
        "install::names_reach_the_source_as_they_were_sent",
    ),
    bug(
        "the cache of the site takes decoded names for parts", "operations/install/ropepeach.nginx",
        "map $rp_source_asked $rp_source_part",
        "map \"a$uri\" $rp_source_part",
        "install::the_cache_keeps_parts_and_keeps_heads_for_a_second",
    ),
    bug(
        "far clients may change through the site", "operations/install/ropepeach.nginx",
        "        return 403;",
        "        set $nothing 1;",
        "install::a_far_client_reads_and_changes_nothing",
    ),
    bug(
        "the site compresses nothing that passed a proxy", "operations/install/ropepeach.nginx",
        "gzip_proxied              any;",
        "gzip_proxied              off;",
        "install_site::lists_are_compressed_for_clients_that_accept_gzip",
    ),
    bug(
        "the site serves its page under decoded names", "operations/install/ropepeach.nginx",
        "map $request_uri $rp_source_page {",
        "map $uri $rp_source_page {",
        "install_site::links_robots_txt_and_the_page_lead_to_the_lists",
    ),
    bug(
        "the site serves robots.txt under decoded names", "operations/install/ropepeach.nginx",
        "if ($request_uri = /robots.txt) {",
        "if ($uri = /robots.txt) {",
        "install_site::links_robots_txt_and_the_page_lead_to_the_lists",
    ),
    bug(
        "a unit without a port is up", "operations/install/until-it-listens",
        "exit 1",
        "exit 0",
        "install_scripts::a_unit_is_up_once_its_port_listens",
    ),
    bug(
        "a port in another state is up", "operations/install/until-it-listens",
        "0A",
        "01",
        "install_scripts::a_unit_is_up_once_its_port_listens",
    ),
    bug(
        "closed looks for another refusal", "operations/install/closed",
        "(503, b\"Closed\\n\")",
        "(503, b\"NoMemory\\n\")",
        "install_scripts::closed_ends_with_status_75_for_a_closed_source_only",
    ),
    bug(
        "the installed site has another timeout", "operations/install/ropepeach.nginx",
        "send_timeout              30s;",
        "send_timeout              31s;",
        "install_doors::the_installed_site_is_what_ropepeach_site_prints",
    ),
    bug(
        "the unit of a source may have any number of processes", "operations/install/ropepeach@.service",
        "TasksMax=16\n",
        "",
        "install_doors::each_unit_limits_processes_memory_and_time",
    ),
    bug(
        "a mirror may take any time", "operations/install/ropepeach-mirror@.service",
        "TimeoutStartSec=1d",
        "TimeoutStartSec=infinity",
        "install_doors::each_unit_limits_processes_memory_and_time",
    ),
    bug(
        "publish runs as another user", "operations/install/ropepeach-publish@.service",
        "User=ropepeach\n",
        "User=nobody\n",
        "install_doors::each_unit_limits_processes_memory_and_time",
    ),
    bug(
        "any certificate may change", "operations/install/ropepeach.nginx",
        "ssl_verify_client      optional;",
        "ssl_verify_client      optional_no_ca;",
        "install::a_known_certificate_allows_changes",
    ),
]

OF_DOORS = [
    bug(
        "an origin with the site's name in front is near", "operations/install/ropepeach.nginx",
        "\"~*^(\\S+) \\1$\"",
        "\"~*^(\\S+) \\1\"",
        "install_doors::a_page_of_another_host_changes_nothing",
    ),
    bug(
        "an origin with the site's host is near", "operations/install/ropepeach.nginx",
        "\"~*^(\\S+) \\1$\"",
        "\"~*^\\S+//([^:/ ]+).* https?://\\1\"",
        "install_doors::a_page_of_another_host_changes_nothing",
    ),
    bug(
        "a page of the same site may change", "operations/install/ropepeach.nginx",
        "    none         0;",
        "    none         0;\n    same-site    0;",
        "install_doors::a_page_of_another_host_changes_nothing",
    ),
    bug(
        "requests of two marks may change", "operations/install/ropepeach.nginx",
        "[A-Z]+ 1 .*00$",
        "[A-Z]+ 1 .*0$",
        "install_doors::a_page_of_another_host_changes_nothing",
    ),
    bug(
        "POST of another page may change", "operations/install/ropepeach.nginx",
        "[A-Z]+ 1 .*00$",
        "(PUT|DELETE) 1 .*00$",
        "install_doors::a_page_of_another_host_changes_nothing",
    ),
    bug(
        "another host name is served", "operations/install/ropepeach.nginx",
        "    if ($host != $server_name) {\n        return 421;\n    }\n    if ($rp_source_refused)",
        "    if ($rp_source_refused)",
        "install_doors::a_request_for_another_host_name_gets_421",
    ),
    bug(
        "a host name that begins with the site's is served", "operations/install/ropepeach.nginx",
        "    if ($host != $server_name) {\n        return 421;\n    }\n    if ($rp_source_refused)",
        "    if ($host !~ ^$server_name) {\n        return 421;\n    }\n    if ($rp_source_refused)",
        "install_doors::a_request_for_another_host_name_gets_421",
    ),
    bug(
        "a request with a body hides another request", "operations/install/ropepeach.nginx",
        "\"~^[A-Z]+ 0 SUCCESS 00$\"",
        "\"~^[A-Z]+ 0 .*00$\"",
        "install_doors::no_change_is_smuggled_in_a_reader_s_request",
    ),
    bug(
        "a change with Content-Range is passed on", "operations/install/ropepeach.nginx",
        "        return 400;",
        "        set $nothing 1;",
        "install_doors::a_change_with_a_range_or_a_condition_is_refused",
    ),
    bug(
        "If-None-Match is passed on", "operations/install/ropepeach.nginx",
        "$http_if_match$http_if_none_match",
        "$http_if_match",
        "install_doors::a_change_with_a_range_or_a_condition_is_refused",
    ),
    bug(
        "If-Match is passed on", "operations/install/ropepeach.nginx",
        "$http_if_match$http_if_none_match",
        "$http_if_none_match",
        "install_doors::a_change_with_a_range_or_a_condition_is_refused",
    ),
    bug(
        "If-Unmodified-Since is passed on", "operations/install/ropepeach.nginx",
        "$http_if_unmodified_since",
        "",
        "install_doors::a_change_with_a_range_or_a_condition_is_refused",
    ),
    bug(
        "a resumed upload is passed on", "operations/install/ropepeach.nginx",
        "        return 400;",
        "        set $nothing 1;",
        "install_doors::a_resumed_upload_replaces_nothing",
    ),
    bug(
        "a visitor gets five bodies at a time", "operations/install/ropepeach.nginx",
        "retry)\n        limit_conn            rp_source_visitors 4;",
        "retry)\n        limit_conn            rp_source_visitors 5;",
        "install_doors::a_visitor_gets_four_bodies_at_a_time",
    ),
    bug(
        "a visitor gets three bodies at a time", "operations/install/ropepeach.nginx",
        "retry)\n        limit_conn            rp_source_visitors 4;",
        "retry)\n        limit_conn            rp_source_visitors 3;",
        "install_doors::a_visitor_gets_four_bodies_at_a_time",
    ),
    bug(
        "a refusal of bodies has no Retry-After", "operations/install/ropepeach.nginx",
        "    add_header Retry-After $rp_source_again always;\n",
        "",
        "install_doors::a_visitor_gets_four_bodies_at_a_time",
    ),
    bug(
        "the page runs scripts of its whole host", "operations/install/ropepeach.nginx",
        "script-src $own;",
        "script-src 'self';",
        "install_doors::each_response_has_its_security_headers",
    ),
    bug(
        "the policy of the page has an odd host name", "operations/install/ropepeach.nginx",
        "(:[0-9]+)?$",
        "(:.*)?$",
        "install_doors::each_response_has_its_security_headers",
    ),
    bug(
        "the files of the page have no HSTS", "operations/install/ropepeach.nginx",
        "image/svg+xml;\n        add_header Strict-Transport-Security \"max-age=31536000\" always;",
        "image/svg+xml;",
        "install_doors::each_response_has_its_security_headers",
    ),
    bug(
        "the responses have no HSTS", "operations/install/ropepeach.nginx",
        "\n    add_header Strict-Transport-Security \"max-age=31536000\" always;",
        "",
        "install_doors::each_response_has_its_security_headers",
    ),
]

OF_PACKAGES = [
    bug(
        "a package has a file of the hour", "debian/rules",
        "\tdh_builddeb",
        "\tdate +%N > debian/ropepeach/usr/share/doc/ropepeach/hour\n\tdh_builddeb",
        "install_packages::two_builds_of_a_commit_have_the_same_bytes",
    ),
    bug(
        "the packages have an unknown section", "debian/control",
        "Section: web\n",
        "Section: webs\n",
        "install_packages::lintian_finds_nothing",
    ),
    bug(
        "the package does not depend on the C library", "debian/control",
        "Architecture: amd64\nPre-Depends: init-system-helpers (>= 1.54~)\nDepends: ${shlibs:Depends}, ",
        "Architecture: amd64\nPre-Depends: init-system-helpers (>= 1.54~)\nDepends: ",
        "install_packages::the_packages_have_the_program_and_its_dependencies",
    ),
    bug(
        "a package takes a program with any stamp", "operations/package/stamp.py",
        "if stamp.sha256 != digest(program):",
        "if not stamp.sha256:",
        "install_packages::no_package_is_built_without_a_stamp",
    ),
    bug(
        "the source package lacks the program", "debian/source/options",
        "tar-ignore = \"build\"",
        "tar-ignore = \"proved\"",
        "install_packages::the_source_package_builds_the_same_packages",
    ),
    bug(
        "pip installs no command", "pyproject.toml",
        "ropepeach = \"ropepeach.__main__:main\"",
        "",
        "install_packages::pip_installs_the_command_without_a_network",
    ),
]
