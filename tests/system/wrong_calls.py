"""Lists of calls of wrong programs, derived from those of a right one. The test must reject them all."""
import os
from collections.abc import Callable

Change = Callable[[list[str]], list[str]]


def behind(calls: list[str], call: str, more: Callable[[str], list[str]]) -> list[str]:
    """Insert `more` calls after the last call that begins with this text."""
    at = max(number for number, entry in enumerate(calls) if entry.startswith(call))
    return [*calls[: at + 1], *more(calls[at]), *calls[at + 1 :]]


def doubled(calls: list[str], call: str) -> list[str]:
    """Repeat every call that begins with this text."""
    return [entry for each in calls for entry in [each, *[each] * each.startswith(call)]]


def the_folder_is_synced_before_the_file_is_made(calls: list[str]) -> list[str]:
    """Sync the folder first."""
    folder = [call for call in calls if call.endswith(" .")]
    return [*folder, *(call for call in calls if call not in folder)]


def the_folder_is_not_synced(calls: list[str]) -> list[str]:
    """Do not sync the folder."""
    return [call for call in calls if call != "sync ."]


def a_new_file_is_not_synced(calls: list[str]) -> list[str]:
    """Leave out the first sync of the file."""
    at = calls.index("sync source.disk")
    return [*calls[:at], *calls[at + 1 :]]


def the_lock_waits(calls: list[str]) -> list[str]:
    """Let the lock wait for another program."""
    return [call.replace("lock source.disk 6", "lock source.disk 2") for call in calls]


def copies_are_not_dropped(calls: list[str]) -> list[str]:
    """Do not drop the system's cached copies of read bytes."""
    return [call.replace(f" 0 0 {os.POSIX_FADV_DONTNEED}", f" 0 0 {os.POSIX_FADV_NORMAL}") for call in calls]


def no_advice_is_given(calls: list[str]) -> list[str]:
    """Give the system no advice."""
    return [call for call in calls if not call.startswith("advise")]


def each_body_is_read_twice(calls: list[str]) -> list[str]:
    """Read every body twice."""
    begin = calls.index("line")
    return [*calls[:begin], *doubled(calls[begin:], "read source.disk")]


def a_sync_more_before_a_commit(calls: list[str]) -> list[str]:
    """Sync once more before a root is written."""
    at = max(number for number, call in enumerate(calls) if call.startswith("write") and call.endswith(" 53"))
    return [*calls[:at], "sync source.disk", *calls[at:]]


def each_part_is_written_twice(calls: list[str]) -> list[str]:
    """Write every part twice."""
    return doubled(calls, "write source.disk")


def one_body_is_written_twice(calls: list[str]) -> list[str]:
    """Write one body twice."""
    return behind(calls, "write source.disk 1536", lambda call: [call])


def a_part_goes_further_behind(calls: list[str]) -> list[str]:
    """Write a part to a later block."""
    at = max(number for number, call in enumerate(calls)
             if call.startswith("write") and not call.endswith((" 1", " 53")))
    _, name, place, length = calls[at].split(" ")
    return [*calls[:at], f"write {name} {int(place) + 512} {length}", *calls[at + 1 :]]


def a_failed_call_is_ignored(calls: list[str]) -> list[str]:
    """Continue after a failed call with the calls of a successful one."""
    return behind(calls, "advise", lambda call: ["sync source.disk"])


def a_failed_call_is_made_again(calls: list[str]) -> list[str]:
    """Repeat a failed call."""
    return [entry for each in calls for entry in [each, *[each.removesuffix(" fails")] * each.endswith(" fails")]]


def one_call_more_behind_a_failed_one(calls: list[str]) -> list[str]:
    """Sync after a failed call."""
    return [entry for each in calls for entry in [each, *["sync source.disk"] * each.endswith(" fails")]]


def a_file_stays_open(calls: list[str]) -> list[str]:
    """Leave the file open."""
    return [call for call in calls if call != "close source.disk"]


# The mistakes in making a file, in commands, and after a failed call.
OF_MAKING = [
    the_folder_is_synced_before_the_file_is_made, the_folder_is_not_synced, a_new_file_is_not_synced, the_lock_waits,
    copies_are_not_dropped, no_advice_is_given, each_part_is_written_twice, a_file_stays_open,
]
OF_COMMANDS = [
    copies_are_not_dropped, no_advice_is_given, each_body_is_read_twice, a_sync_more_before_a_commit,
    each_part_is_written_twice,
    one_body_is_written_twice, a_part_goes_further_behind, a_file_stays_open,
]
OF_FAILING_ADVICE = [a_failed_call_is_ignored]
OF_FAILING = [a_failed_call_is_made_again, one_call_more_behind_a_failed_one]
