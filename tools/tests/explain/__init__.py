"""Tests of how explanations are said and drawn."""
import tool  # noqa: F401
