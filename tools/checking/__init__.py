"""What tools/check and tools/packages run by: the guards, the packages, and how both are counted."""
