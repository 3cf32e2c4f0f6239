"""Shapes of modules whose printing must not take longer than their text grows, and the runs that measure it. tools/growth.py documents it."""
