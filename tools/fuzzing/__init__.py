"""What tools/fuzz runs by: octets changed at random, readers that get them, and what of their ends is a fault."""
