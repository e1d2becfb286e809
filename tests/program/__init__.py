"""Tests of the program from outside, as a shell, an agent or a student has it."""

from tests.support import signals  # noqa: F401
