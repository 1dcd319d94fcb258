"""A plugin of pytest: note assertion failures in the JUnit report."""
from __future__ import annotations

from typing import Any

import pytest

# The name of the property of a failed test.
BY_ASSERTION = "failed by an assertion"


def is_assertion(why: BaseException | None) -> bool:
    """Return whether the exception comes from `assert` or `pytest.fail`, not from a timeout."""
    if isinstance(why, BaseExceptionGroup):
        return any(map(is_assertion, why.exceptions))
    return isinstance(why, AssertionError) or isinstance(why, pytest.fail.Exception) and "Timeout >" not in str(why)


@pytest.hookimpl(tryfirst=True)  # type: ignore[misc]
def pytest_runtest_makereport(item: pytest.Item, call: pytest.CallInfo[Any]) -> None:
    """Note the kind of failure before pytest makes the report."""
    if call.excinfo and is_assertion(call.excinfo.value):
        item.user_properties.append((BY_ASSERTION, call.when))
