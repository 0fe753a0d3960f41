"""What `explain --json` says, in sentences, in a picture and on a page."""
