"""A zone as a transfer has it, taken apart into what a proved program can be asked of it."""
