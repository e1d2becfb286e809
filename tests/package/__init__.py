"""Tests of the package."""

from tests.support import signals  # noqa: F401
