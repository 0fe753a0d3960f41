"""What tools/wrong-bodies and tools/does-not-compile do with the edits of crates."""
