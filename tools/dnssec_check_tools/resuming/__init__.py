"""What an earlier run wrote, so that it isn't judged again."""
