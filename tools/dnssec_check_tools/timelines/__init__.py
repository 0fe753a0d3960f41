"""What a question's verdict is at each moment of a range, when it changes, and by which signatures."""
