"""Makes modules for tools/fuzz.py: reads well-formed modules as trees of their parts, and changes parts."""
