"""Signatures verified."""
