"""Tests of tools/faults and of the library that refuses a program its calls, with small programs in C."""
import tool  # which says where the tools are
