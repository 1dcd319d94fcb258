"""Planted bugs of the program. Proofs reject most of them; the others satisfy every clause.

The first bugs satisfy every clause or break only the form of a proof, and passed every check of an earlier tree. Half
of the later ones show only at sizes and in orders that no other test covers.
"""
from __future__ import annotations

from tests.planted.plants import Bug

SYSTEM = "tests/system/test_"
CALLS, PAGES, FAR, MEMORY = (f"{SYSTEM}{name}.py -x" for name in ("calls", "pages", "far", "memory"))
EDGES = f"{SYSTEM}edges.py {SYSTEM}connections.py -x"
GROWTHS = f"{SYSTEM}growths.py -x -k 'command or large_body'"
LARGE = f"SEED=74 {SYSTEM}large.py -x"
ROWS = "tests/rows -x"
# The tests of these bugs take minutes of processor time.
LONG = (LARGE, FAR, MEMORY)


def body(what: str, crate: str, file: str, old: str, new: str, tests: str) -> Bug:
    """Return a wrong body in a file of a crate."""
    return Bug(what, f"crates/rs_{crate}/src/{file}.rt", old, new, tests, is_long=tests in LONG)


OF_CALLS = [
    body(
        "pages are written behind one that failed", "pages", "storing",
        "    for page in pages.iter_mut() {\n        page.store(alloc, disk)?;\n    }\n    Ok(())\n",
        "    let mut stored = Ok(());\n    for page in pages.iter_mut() {\n"
        "        stored = stored.and(page.store(alloc, disk));\n    }\n    stored\n",
        CALLS,
    ),
    body(
        "a damaged body is read twice", "store", "reading",
        "        read_in_pieces(&mut self.disk, extent, length, &sha256, &mut bytes)?;\n",
        "        if read_in_pieces(&mut self.disk, extent, length, &sha256, &mut bytes).is_err() {\n"
        "            read_in_pieces(&mut self.disk, extent, length, &sha256, &mut bytes)?;\n        }\n",
        CALLS,
    ),
    body(
        "a copy goes on behind a damaged body", "copy", "bodies",
        "    for i in 0..old.len() {\n        copy_body(from, old.at(i), to, new.at(i).extent)?;\n    }\n"
        "    Ok(())\n",
        "    let mut copied = Ok(());\n    for i in 0..old.len() {\n"
        "        copied = copied.and(copy_body(from, old.at(i), to, new.at(i).extent));\n    }\n    copied\n",
        CALLS,
    ),
    body(
        "a slot is synced behind its failed write", "commit", "settled",
        "    disk.write(at, bytes)?;\n    disk.sync()\n",
        "    let written = disk.write(at, bytes);\n    written.and(disk.sync())\n",
        CALLS,
    ),
    body(
        "a body that failed is written once more", "body", "write",
        "    disk.write(offset_of(extent) + at as u64, piece)\n",
        "    if disk.write(offset_of(extent) + at as u64, piece).is_ok() {\n        return Ok(());\n    }\n"
        "    disk.write(offset_of(extent) + at as u64, piece)\n",
        CALLS,
    ),
    body(
        "a failed read is tried again", "io", "watch",
        "        match self.inner.read(buf) {\n            Ok(count) => Ok(count),\n",
        "        let first = self.inner.read(buf);\n"
        "        match if first.is_err() { self.inner.read(buf) } else { first } {\n"
        "            Ok(count) => Ok(count),\n",
        EDGES,
    ),
    body(
        "a failed flush is tried again", "io", "watch",
        "if let Ok(()) = self.inner.flush() {",
        "if self.inner.flush().is_ok() || self.inner.flush().is_ok() {",
        EDGES,
    ),
    body(
        "a write of no byte is tried again", "io", "watch",
        "            Ok(count) if count > 0 => return Ok(Some(count)),\n",
        "            Ok(count) if count > 0 => return Ok(Some(count)),\n            Ok(_) => return Ok(None),\n",
        EDGES,
    ),
    body(
        "the rest of a refused request has no limit", "source", "serving",
        "    for _ in 0..MOST_READS {\n",
        "    loop {\n",
        EDGES,
    ),
    body(
        "the rest of a refused request is read 8 times", "source", "serving",
        "MOST_READS: usize = 8192;",
        "MOST_READS: usize = 8;",
        EDGES,
    ),
]
OF_SIZES = [
    body(
        "bytes are written at an offset of 31 bits", "file", "system",
        "self.file.write_all_at(bytes, at).is_ok()",
        "self.file.write_all_at(bytes, at & 0x7fff_ffff).is_ok()",
        FAR,
    ),
    body(
        "bytes are read at an offset of 31 bits", "file", "system",
        "self.file.read_exact_at(into, at).is_ok()",
        "self.file.read_exact_at(into, at & 0x7fff_ffff).is_ok()",
        FAR,
    ),
    body(
        "a long body is verified twice", "store", "verifying",
        "    match is_intact(disk, held.extent, held.length, &held.digests.sha256) {\n",
        "    if held.length > 1 << 20 && is_intact(disk, held.extent, held.length, "
        "&held.digests.sha256).is_err() {\n        return Err(Refusal::Device);\n    }\n"
        "    match is_intact(disk, held.extent, held.length, &held.digests.sha256) {\n",
        LARGE,
    ),
    body(
        "a long body is written twice", "store", "commands",
        "        if write_body(&mut self.disk, plan.bodies[0], bytes).is_err() {\n",
        "        if (bytes.len() > 1 << 20 && write_body(&mut self.disk, plan.bodies[0], bytes).is_err())\n"
        "            || write_body(&mut self.disk, plan.bodies[0], bytes).is_err()\n        {\n",
        LARGE,
    ),
    body(
        "a copy of more than 16 is synced once more", "copy", "bodies",
        "    for i in 0..old.len() {\n",
        "    if old.len() > 16 {\n        to.sync()?;\n    }\n    for i in 0..old.len() {\n",
        LARGE,
    ),
    body(
        "a group of 13 is refused for memory", "store", "grouping",
        "        let moment = self.accept_group(items, now)?;\n",
        "        if items.len() == 13 {\n            return Err(Refusal::NoMemory);\n        }\n"
        "        let moment = self.accept_group(items, now)?;\n",
        LARGE,
    ),
    body(
        "a publication above 7,000 is refused for memory", "store", "commands",
        "        let moment = self.accept_publish(now)?;\n",
        "        if self.contents.catalogue.len() > 7_000 {\n            return Err(Refusal::NoMemory);\n        }\n"
        "        let moment = self.accept_publish(now)?;\n",
        LARGE,
    ),
    body(
        "a long body that streams is refused for memory", "store", "receiving",
        "        let length = body_length as u32;\n",
        "        if body_length > 12_000_000 {\n            return Err(Refusal::NoMemory);\n        }\n"
        "        let length = body_length as u32;\n",
        LARGE,
    ),
    body(
        "a deletion above 7,000 changes is refused for memory", "store", "commands",
        "        let moment = self.accept_delete(name, now)?;\n",
        "        if self.contents.history.len() > 7_000 {\n            return Err(Refusal::NoMemory);\n        }\n"
        "        let moment = self.accept_delete(name, now)?;\n",
        LARGE,
    ),
    body(
        "no source of exactly 12,000 opens", "store", "opening",
        "    let found = load(alloc, disk, &root)?;\n",
        "    let found = load(alloc, disk, &root)?;\n    if found.contents.catalogue.len() == 12_000 {\n"
        "        return Err(OpenFault::NoMemory);\n    }\n",
        LARGE,
    ),
    body(
        "a put of a long body asks for twice the memory", "body", "by_pieces",
        "into.try_reserve_exact(length as usize)?;",
        "into.try_reserve_exact(2 * length as usize)?;",
        LARGE,
    ),
]
OF_MEMORY = [
    body(
        "a page that is written asks for a megabyte", "page", "format",
        "Vec::with_capacity(alloc, page_size(items) as usize)?",
        "Vec::with_capacity(alloc, 1 << 20)?",
        GROWTHS,
    ),
    body(
        "a directory that is written asks for four megabytes", "directory", "format",
        "Vec::with_capacity(alloc, directory_size(header, entries) as usize)?",
        "Vec::with_capacity(alloc, 4 << 20)?",
        GROWTHS,
    ),
    body(
        "a plan asks for room of 100,000 extents", "plan", "planning/placing",
        "    found.reserve(more)?;\n",
        "    found.reserve(more + 100_000)?;\n",
        GROWTHS,
    ),
    body(
        "records are copied into room for 50,000", "pages", "pages",
        "let mut pages = Vec::with_capacity(alloc, self.pages.len())?;\n"
        "        copy_into(alloc, &mut pages, &self.pages)?;\n        Pages::of_pages(alloc, pages)",
        "let mut pages = Vec::with_capacity(alloc, 50_000)?;\n        copy_into(alloc, &mut pages, &self.pages)?;\n"
        "        Pages::of_pages(alloc, pages)",
        GROWTHS,
    ),
    body(
        "an opening loads again after want of memory", "store", "opening",
        "    let found = load(alloc, disk, &root)?;\n",
        "    let found = match load(alloc, disk, &root) {\n"
        "        Err(LoadFault::NoMemory) => load(alloc, disk, &root)?,\n        found => found?,\n    };\n",
        MEMORY,
    ),
    body(
        "want of memory for the arguments counts as their fault", "source", "program",
        "        ErrorKind::OutOfMemory => ProgramError::NoMemory,\n",
        "        ErrorKind::OutOfMemory => ProgramError::Usage,\n",
        MEMORY,
    ),
]
# Later bugs.
OF_LIBRARIES = [
    body(
        "`changes` refuses above 1,000", "store", "reading",
        "        Ok(changes_in(self.alloc, &self.contents.history)?)\n",
        "        if self.contents.history.len() > 1_000 {\n            return Err(Refusal::NoMemory);\n        }\n"
        "        Ok(changes_in(self.alloc, &self.contents.history)?)\n",
        "cargo rs_store_tests many",
    ),
    body(
        "`run` refuses above 1,000 commands", "store", "running",
        "        let mut acks = Vec::with_capacity(self.alloc, commands.len())?;\n",
        "        if commands.len() > 1_000 {\n            return Err(Refusal::NoMemory);\n        }\n"
        "        let mut acks = Vec::with_capacity(self.alloc, commands.len())?;\n",
        "cargo rs_store_tests many",
    ),
    body(
        "`changes` has room for more than there are", "store", "reading",
        "    let len = history.len();\n",
        "    let len = history.len().next_power_of_two();\n",
        "cargo rs_store_tests many",
    ),
]
OF_ORDERS = [
    body(
        "a name of 240 bytes is none", "record", "name",
        "bytes.len() <= 240 &&",
        "bytes.len() < 240 &&",
        ROWS,
    ),
    body(
        "blocks that were given back are looked for too late", "extent", "used",
        "self.full_words.min(first / 64)",
        "self.full_words.min(first / 64 + 1)",
        CALLS,
    ),
    body(
        "a page of 64 is cut", "pages", "making",
        "    while rest.len() > MOST {\n        let later = rest.split_off(piece)?;",
        "    while rest.len() >= MOST {\n        let later = rest.split_off(piece)?;",
        PAGES,
    ),
    body(
        "a part more is dropped", "plan", "planning/dropping",
        "    passed as u64 / u64::from(contents.header.limit.items())\n",
        "    (passed as u64).div_ceil(u64::from(contents.header.limit.items()))\n",
        ROWS,
    ),
    body(
        "the last piece of a body of whole pieces has no digest", "store", "receiving",
        "        hashing.add(piece);\n",
        "        if at + size < body_length || body_length % 4096 != 0 || at == 0 {\n"
        "            hashing.add(piece);\n        }\n",
        LARGE,
    ),
    body(
        "damaged bodies are named from the last", "store", "verifying",
        "    for i in 0..catalogue.len() {\n",
        "    for i in (0..catalogue.len()).rev() {\n",
        ROWS,
    ),
    body(
        "a put and a deletion of one group are both written", "plan", "planning/grouping",
        "    items.iter().any(|item| name.bytes() == item.name().bytes())\n",
        "    items\n        .iter()\n"
        "        .any(|item| matches!(item, Item::Put { .. }) && name.bytes() == item.name().bytes())\n",
        CALLS,
    ),
    body(
        "the longest line that ends with CR LF is too long", "script", "line",
        "if run.len() > LINE_LIMIT + 1 - self.count {",
        "if run.len() > LINE_LIMIT - self.count {",
        "tests/hostile/test_lines.py -x",
    ),
    body(
        "a group of 16 long names is refused for memory", "store", "grouping",
        "        let mut plan = self.planned_group(items, moment)?;\n",
        "        if items.len() == 16 && items.iter().map(|item| "
        "item.name().bytes().len()).sum::<usize>() > 1_500 {\n            return Err(Refusal::NoMemory);\n"
        "        }\n        let mut plan = self.planned_group(items, moment)?;\n",
        LARGE,
    ),
]
# Bugs that no earlier check noticed: full pieces, long groups, many connections and resources.
OF_EDGES = [
    body(
        "a group of more than 1 MB over HTTP is refused for memory", "http", "body",
        "    let mut body = vec![in alloc; 0u8; body_length as usize]?;\n",
        "    if body_length > 1_000_000 {\n        return Err(Refusal::NoMemory);\n    }\n"
        "    let mut body = vec![in alloc; 0u8; body_length as usize]?;\n",
        LARGE,
    ),
    body(
        "a group of more than 8 MiB is refused for memory", "store", "grouping",
        "        let mut plan = self.planned_group(items, moment)?;\n",
        "        let mut plan = self.planned_group(items, moment)?;\n"
        "        if plan.bodies.iter().map(|it| it.blocks as usize).sum::<usize>() > 16_384 {\n"
        "            return Err(Refusal::NoMemory);\n        }\n",
        LARGE,
    ),
    body(
        "a body of one piece is verified twice", "store", "verifying",
        "    match is_intact(disk, held.extent, held.length, &held.digests.sha256) {\n",
        "    if held.length == 16_384 && is_intact(disk, held.extent, held.length, &held.digests.sha256).is_err() {\n"
        "        return Err(Refusal::Device);\n    }\n"
        "    match is_intact(disk, held.extent, held.length, &held.digests.sha256) {\n",
        LARGE,
    ),
    body(
        "a body that comes in one full piece is written twice", "store", "receiving",
        "        receive_piece(disk, reader, extent, at, piece)?;\n",
        "        receive_piece(disk, reader, extent, at, piece)?;\n"
        "        if body_length == 4096 && write_piece(disk, extent, at, piece).is_err() {\n"
        "            return Err(Refusal::Device);\n        }\n",
        LARGE,
    ),
    body(
        "a command above 2,000 resources is synced once more", "store", "commands",
        "        let committed = self.slots.commit(\n",
        "        if self.contents.catalogue.len() > 2_000 && self.disk.sync().is_err() {\n"
        "            self.is_closed = true;\n            return Err(Refusal::Device);\n        }\n"
        "        let committed = self.slots.commit(\n",
        LARGE,
    ),
    body(
        "a folder of one letter is not synced", "file", "opening",
        "        Some(folder) if !folder.as_str().is_empty() => folder.as_str(),\n",
        "        Some(folder) if folder.as_str().len() > 1 => folder.as_str(),\n",
        CALLS,
    ),
    body(
        "a server ends after 2,000 connections", "source", "serving",
        "    for _ in 0..count {\n",
        "    for _ in 0..count.min(2_000) {\n",
        EDGES,
    ),
    body(
        "a copy closes the second slot first", "commit", "copying",
        "    disk.write(Slot::First.offset(), &[CLOSED])?;\n"
        "    write_settled(disk, Slot::Second.offset(), &[CLOSED])\n",
        "    disk.write(Slot::Second.offset(), &[CLOSED])?;\n"
        "    write_settled(disk, Slot::First.offset(), &[CLOSED])\n",
        CALLS,
    ),
    body(
        "an opening reads both slots in one call", "commit", "reading",
        "    let first = read_slot(disk, Slot::First)?;\n    let second = read_slot(disk, Slot::Second)?;\n",
        "    let (mut both, mut slot) = ([0; 566], [0; 54]);\n    disk.read(0, &mut both)?;\n"
        "    slot.copy_from_slice(&both[..54]);\n    let first = content(&slot);\n"
        "    slot.copy_from_slice(&both[512..]);\n    let second = content(&slot);\n",
        CALLS,
    ),
    body(
        "a request comes at the moment 0", "source", "serving",
        "        if answer_stream(alloc, service, &stream, now) {\n",
        "        let now = if now > Moment::first() { Moment::first() } else { now };\n"
        "        if answer_stream(alloc, service, &stream, now) {\n",
        EDGES,
    ),
    body(
        "the rest of a refused request is not read", "source", "serving",
        "            read_rest(&stream, self.clock);\n",
        "            let _ = || read_rest(&stream, self.clock);\n",
        EDGES,
    ),
    body(
        "the rest of a refused request has all the time", "source", "serving",
        ">= LONGEST_REST",
        ">= LONGEST_REST * 1_000",
        EDGES,
    ),
]
