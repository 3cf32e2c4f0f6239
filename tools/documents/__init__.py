"""What the documents say that the repository shows too. tools/documents.py describes the checks."""
