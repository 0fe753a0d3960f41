"""Tests of tools/fuzz."""
import tool  # which says where the tools are
