"""What holds the documents, and the wrong programs, against the tree."""
