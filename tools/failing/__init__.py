"""What tools/faults tries, and how it runs the program where something fails it."""
