"""Soak: what takes minutes or hours, and draws what it does from a seed."""

from tests.support import signals  # noqa: F401
