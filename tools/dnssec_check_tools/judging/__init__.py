"""Captures judged by the program, here or by workers, and the verdicts told."""
