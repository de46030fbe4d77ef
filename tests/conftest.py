"""Tells pytest what tests need: tests/support/needs.py has it in a form for unittest, too."""
from collections.abc import Iterable

import pytest

from tests.support.needs import markers_of


def pytest_collection_modifyitems(items: Iterable[pytest.Item]) -> None:
    """Gives each test the markers of its class and of its method."""
    for item in items:
        if isinstance(item, pytest.Function):
            for name in markers_of(item.cls) | markers_of(item.function):
                item.add_marker(name)
