"""Tests that the pages, the tables of the tools and the code say the same."""
import tool  # noqa: F401
