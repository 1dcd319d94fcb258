"""The name of a source of this machine, instead of its file or its address."""
from __future__ import annotations

import os
from typing import TYPE_CHECKING

from ropepeach.cli import output

if TYPE_CHECKING:
    from ropepeach.admin.machine import Settings


def source_named(text: str) -> Settings | None:
    """Return the settings of the source of this machine that a text names, or None.

    A path or an address has a `/`, a dot or a colon. An existing file of the name precedes the source.
    """
    if set("/.:") & set(text):
        return None
    # (most arguments are paths and addresses, which no name can be)
    from ropepeach.admin import machine
    from ropepeach.admin.site_text import SOURCE_NAME

    if not SOURCE_NAME.fullmatch(text):
        return None
    settings = machine.Place(text).known()
    if settings is not None and os.path.lexists(text):
        output.message(f"{text}: the file of this name here, and not the source of this machine")
        return None
    return settings


def file_named(text: str) -> str:
    """Return the file of a source of this machine that a text names, or else the text."""
    settings = source_named(text)
    return text if settings is None else str(settings.file)


def address_named(text: str) -> str:
    """Return the address of a source of this machine that a text names, or else the text."""
    settings = source_named(text)
    return text if settings is None else settings.address
