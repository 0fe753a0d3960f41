"""Tests of what judge says is odd."""
import tool  # noqa: F401
