"""Call a function with generated values (hypothesis), the same in every run."""
from __future__ import annotations

from collections.abc import Callable, Mapping
from typing import Any

st: Any
try:
    from hypothesis import HealthCheck, Phase, given, settings
    from hypothesis import strategies as st
except ModuleNotFoundError:
    st = None

EXAMPLES = 60


def tried(strategies: Mapping[str, Any], look: Callable[..., None], examples: int = EXAMPLES) -> None:
    """Call a function with values of strategies."""
    how = settings(max_examples=examples, derandomize=True, deadline=None, database=None,
                   suppress_health_check=list(HealthCheck),
                   phases=[Phase.generate], print_blob=False)
    how(given(**strategies)(look))()
