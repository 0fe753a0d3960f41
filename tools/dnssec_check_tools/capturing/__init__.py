"""Captures made of packets, streams, text and the answers of others."""
