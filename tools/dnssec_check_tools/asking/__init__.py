"""What a tool that judges is asked: captures, questions, moments and trust anchors."""
