"""Planted bugs of the program where contracts end: system calls, sockets, arguments, memory and sizes."""
from __future__ import annotations

from tests.planted.bugs.program import body

ERRORS = "tests/system/test_errors.py::test_an_error_has_its_documented_result"
LIMITS = "tests/system/test_served_errors.py::test_only_the_rest_of_a_refused_request_has_a_time_limit_of_two_seconds"
STREAMS = "tests/system/test_streams.py"
FAR_AWAY = "tests/system/test_far.py"
MANY = "tests/system/test_connections.py::test_thousands_of_connections_are_served_without_more_memory"
PATHS = "tests/system/test_paths.py -x"


def swallowing(call: str, errors: str) -> str:
    """Return a call of the file whose result counts as success with these errors of the system."""
    return f"self.file.{call}.map_or_else(|e| matches!(e.raw_os_error(), Some({errors})), |()| true)"


OF_ERRORS = [
    body(
        "a sync that fails for want of space counts as done", "file", "system",
        "self.file.sync_all().is_ok()", swallowing("sync_all()", "28 | 122 | 22"),
        f"{ERRORS}[format]",
    ),
    body(
        "a write that fails for want of space counts as done", "file", "system",
        "self.file.write_all_at(bytes, at).is_ok()", swallowing("write_all_at(bytes, at)", "28"),
        f"{ERRORS}[format]",
    ),
    body(
        "a folder that cannot be synced counts as synced", "file", "opening",
        "    File::open(rt, folder)?.sync_all()\n",
        "    match File::open(rt, folder)?.sync_all() {\n"
        "        Err(e) if e.raw_os_error() == Some(22) => Ok(()),\n        done => done,\n    }\n",
        f"{ERRORS}[format]",
    ),
    body(
        "a file system without locks is used without one", "file", "opening",
        "    file.try_lock()?;\n",
        "    match file.try_lock() {\n        Err(std::fs::TryLockError::Error(e))\n"
        "            if matches!(e.raw_os_error(), Some(37 | 95)) => {}\n        locked => locked?,\n    }\n",
        f"{ERRORS}[format]",
    ),
    body(
        "a file that cannot be written opens for reading", "file", "opening",
        "    let file = OpenOptions::new().read(true).write(true).open(rt, path)?;\n",
        "    let file = match OpenOptions::new().read(true).write(true).open(rt, path) {\n"
        "        Ok(file) => file,\n        Err(_) => OpenOptions::new().read(true).open(rt, path)?,\n    };\n",
        f"{ERRORS}[copy]",
    ),
    body(
        "a connection has a time limit", "source", "serving",
        "        let now = moment_of(self.clock.since_1970());\n",
        "        let _ = stream.set_read_timeout(Some(Duration::from_secs(10)));\n"
        "        let _ = stream.set_write_timeout(Some(Duration::from_secs(5)));\n"
        "        let now = moment_of(self.clock.since_1970());\n",
        LIMITS,
    ),
    body(
        "the rest of a refused request is read for four seconds", "source", "serving",
        "const LONGEST_REST: u64 = 2;",
        "const LONGEST_REST: u64 = 4;",
        LIMITS,
    ),
]
OF_PATHS = [
    body(
        "the folder of an absolute path is not synced", "file", "opening",
        "    File::open(rt, folder)?.sync_all()\n",
        "    if folder.starts_with('/') {\n        return Ok(());\n    }\n    File::open(rt, folder)?.sync_all()\n",
        PATHS,
    ),
    body(
        "a path beyond ASCII is refused", "file", "opening",
        "    let file = claimed(file)?;\n    let size = settled_length(&file)?;\n",
        "    if !path.is_ascii() {\n        return Err(ErrorKind::Unsupported.into());\n    }\n"
        "    let file = claimed(file)?;\n    let size = settled_length(&file)?;\n",
        PATHS,
    ),
    body(
        "a path of more than 255 bytes is refused", "file", "opening",
        "    let file = claimed(file)?;\n    let size = settled_length(&file)?;\n",
        "    if path.len() > 255 {\n        return Err(ErrorKind::Unsupported.into());\n    }\n"
        "    let file = claimed(file)?;\n    let size = settled_length(&file)?;\n",
        PATHS,
    ),
    body(
        "a file with two names is refused", "file", "opening",
        "    if !file.metadata()?.is_file() {\n",
        "    if !file.metadata()?.is_file() || std::os::unix::fs::MetadataExt::nlink(&file.metadata()?) > 1 {\n",
        PATHS,
    ),
]
OF_OFFSETS = [
    body(
        "a write that crosses 2 GiB is cut there", "file", "system",
        "self.file.write_all_at(bytes, at).is_ok()",
        "self.file.write_all_at(if at < 1 << 31 && at + bytes.len() as u64 > 1 << 31 {\n"
        "            &bytes[..((1u64 << 31) - at) as usize]\n        } else {\n            bytes\n"
        "        }, at).is_ok()",
        f"{FAR_AWAY}::test_a_body_that_crosses_2_gib_is_written",
    ),
    body(
        "a read that crosses 2 GiB is cut there", "file", "system",
        "self.file.read_exact_at(into, at).is_ok()",
        "{\n            let end = if at < 1 << 31 && at + into.len() as u64 > 1 << 31 {\n"
        "                ((1u64 << 31) - at) as usize\n            } else {\n"
        "                into.len()\n            };\n"
        "            self.file.read_exact_at(&mut into[..end], at).is_ok()\n        }",
        f"{FAR_AWAY}::test_a_part_that_crosses_2_gib_is_read[body]",
    ),
]
# Bugs that long scripts, failing streams and odd sizes reveal.
OF_STREAMS = [
    body(
        "a failure of standard error is a success", "source", "main",
        '            let _ = eprintln!(rt; "{error}");\n            ExitCode::from(error.status())\n',
        '            match eprintln!(rt; "{error}") {\n                Ok(_) => ExitCode::from(error.status()),\n'
        "                Err(_) => ExitCode::SUCCESS,\n            }\n",
        f"{STREAMS}::test_a_failure_of_standard_error_leaves_the_exit_status",
    ),
    body(
        "a script ends behind 256 MiB", "source", "main",
        "    let mut reader = Watched::new(rt.reader());\n",
        "    let mut reader = Watched::new(io::Read::take(rt.reader(), 256 << 20));\n",
        f"{STREAMS}::test_a_script_of_300_mib_is_read_to_its_end",
    ),
    body(
        "output that fails on a closed source is a success", "source", "main",
        "    script(rt.alloc(), source, &mut reader, &mut writer)?;\n    Ok(())\n",
        "    match script(rt.alloc(), source, &mut reader, &mut writer) {\n"
        "        Err(_) if source.is_closed() => Ok(()),\n"
        "        done => done.map(|_| ()).map_err(Into::into),\n    }\n",
        f"{STREAMS}::test_output_that_cannot_be_written_fails_on_a_closed_source_too",
    ),
    body(
        "a refused client that sends 1 KiB restarts its time", "source", "serving",
        "    let mut rest = [0u8; 8192];\n    for _ in 0..MOST_READS {\n"
        "        let Ok(1..) = reader.read(&mut rest) else {\n            return;\n        };\n",
        "    let mut begun = begun;\n    let mut rest = [0u8; 8192];\n    for _ in 0..MOST_READS {\n"
        "        let Ok(count @ 1..) = reader.read(&mut rest) else {\n            return;\n        };\n"
        "        if count >= 1_024 {\n            begun = clock.monotonic().unwrap_or(begun);\n        }\n",
        "tests/system/test_connections.py::test_a_refused_client_holds_the_next_for_two_seconds",
    ),
    body(
        "a copy has whole blocks", "source", "main",
        "    copy_to_file(rt, &mut source, new, size, Unknown)?;\n",
        "    copy_to_file(rt, &mut source, new, size / 512 * 512, Unknown)?;\n",
        f"{STREAMS}::test_a_size_may_be_no_multiple_of_a_block",
    ),
    body(
        "a server has 1,000 requests of the same moment", "source", "serving",
        "        let now = moment_of(self.clock.since_1970());\n",
        "        static CLOCK: std::sync::Mutex<(u64, u64)> = std::sync::Mutex::new((0, 0));\n"
        "        let mut known = CLOCK.lock().unwrap();\n        if known.0 % 1000 == 0 {\n"
        "            known.1 = moment_of(self.clock.since_1970()).ms();\n        }\n        known.0 += 1;\n"
        "        let now = Moment::new(known.1).unwrap();\n",
        MANY,
    ),
    body(
        "a server of 1,000 connections publishes at its end", "source", "main",
        "    serve_connections(rt.alloc(), source, &listener, serving.count, rt);\n",
        "    serve_connections(rt.alloc(), source, &listener, serving.count, rt);\n"
        "    if serving.count >= 1_000 {\n        let _ = source.publish(rs_time::Moment::first());\n    }\n",
        MANY,
    ),
    body(
        "a shown body stays in memory", "http", "ask",
        "        Ok(kind) => write_shown(writer, framing, kind.bytes(), bytes.as_slice()),\n",
        "        Ok(kind) => {\n            let shown = write_shown(writer, framing, kind.bytes(), bytes.as_slice());\n"
        "            core::mem::forget(bytes);\n            shown\n        }\n",
        f"{STREAMS}::test_the_memory_of_a_server_is_steady[GET]",
    ),
    body(
        "the items of a group stay in memory", "http", "answer",
        "    let command = Command::Group(Group::new(items));\n    run(source, &command, writer, exchange)\n",
        "    let command = Command::Group(Group::new(items));\n"
        "    let done = run(source, &command, writer, exchange);\n    core::mem::forget(command);\n    done\n",
        f"{STREAMS}::test_the_memory_of_a_server_is_steady[group]",
    ),
    body(
        "a put body stays in memory", "store", "commands",
        "        let mut plan = self.planned_put(name, kind, bytes, moment)?;\n",
        "        let mut plan = self.planned_put(name, kind, bytes, moment)?;\n"
        "        core::mem::forget(bytes.to_vec());\n",
        f"{STREAMS}::test_the_memory_of_a_script_is_steady[put]",
    ),
    body(
        "nothing is flushed after 20,000 calls", "io", "counted",
        "        self.calls = self.calls.saturating_add(1);\n        self.end.flush()\n",
        "        self.calls = self.calls.saturating_add(1);\n        if self.calls > 20_000 {\n"
        "            return Ok(());\n        }\n        self.end.flush()\n",
        f"{STREAMS}::test_every_line_of_a_long_conversation_is_answered",
    ),
    body(
        "a disk in memory fails after 20,000 calls", "disk", "memory/calls",
        "            Outcome::Works => {\n                self.contents.get(at as usize, into);\n",
        "            Outcome::Works if self.calls > 20_000 => Err(Fault),\n"
        "            Outcome::Works => {\n                self.contents.get(at as usize, into);\n",
        f"{STREAMS}::test_a_disk_in_memory_makes_thousands_of_calls",
    ),
]
LARGE = "tests/system/test_large.py::test"
DRAWN = f"SEED=74 {LARGE}_commands_of_drawn_counts_of_resources_are_accepted[0]"
# Refusals for lack of memory that no lack of memory causes.
OF_COUNTS = [
    body(
        "a body is not shown above 10,000 resources", "store", "reading",
        "        let sha256 = record.digests.sha256;\n",
        "        if self.contents.catalogue.len() > 10_000 {\n            return Err(Refusal::NoMemory);\n        }\n"
        "        let sha256 = record.digests.sha256;\n",
        DRAWN,
    ),
    body(
        "more than 10,000 resources are not verified", "store", "verifying",
        "    for i in 0..catalogue.len() {\n",
        "    if catalogue.len() > 10_000 {\n        return Err(Refusal::NoMemory);\n    }\n"
        "    for i in 0..catalogue.len() {\n",
        DRAWN,
    ),
    body(
        "a body over HTTP is refused above 10,000 resources", "store", "receiving",
        "        let length = body_length as u32;\n",
        "        if self.contents.catalogue.len() > 10_000 {\n            return Err(Refusal::NoMemory);\n        }\n"
        "        let length = body_length as u32;\n",
        DRAWN,
    ),
    body(
        "more than 10,000 resources are not copied", "store", "copying",
        "        if self.is_closed {\n            return Err((disk, CopyRefusal::Closed));\n        }\n",
        "        if self.is_closed || self.contents.catalogue.len() > 10_000 {\n"
        "            return Err((disk, CopyRefusal::Closed));\n        }\n",
        DRAWN,
    ),
    body(
        "at most 2,000 damaged bodies are named", "store", "verifying",
        "    names.push(name.copy(alloc)?)?;\n",
        "    if names.len() < 2_000 {\n        names.push(name.copy(alloc)?)?;\n    }\n",
        f"{LARGE}_many_damaged_bodies_are_named",
    ),
]
