"""Renames modules and words in all files of the repository, for tools/rename.py."""
