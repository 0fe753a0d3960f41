"""What is odd of evidence that is secure: an opinion beside the proof, which changes no verdict."""
