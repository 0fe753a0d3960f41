"""Tests of tools/capture; the modules of the tools can be imported once `tool` is."""
import tool  # noqa: F401
