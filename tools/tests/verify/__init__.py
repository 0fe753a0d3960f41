"""Tests of tools/verify."""
import tool  # noqa: F401
