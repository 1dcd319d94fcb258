"""Make values for tests of texts of other software: addresses, moments, refusals."""
from __future__ import annotations

import re
from contextlib import AbstractContextManager

import pytest

from ropepeach.faults import Fault
from ropepeach.resync.addresses import Address, address_in
from ropepeach.resync.moments import Moment, moment_in


def at(text: str) -> Address:
    """Return an address."""
    address = address_in(text)
    assert address is not None, text
    return address


def moment(text: str) -> Moment:
    """Return a moment."""
    found = moment_in(text)
    assert found is not None, text
    return found


def refused(says: str, kind: type[Fault] = Fault) -> AbstractContextManager[pytest.ExceptionInfo[Fault]]:
    """Check that a block raises a fault with this message."""
    return pytest.raises(kind, match=re.escape(says))
