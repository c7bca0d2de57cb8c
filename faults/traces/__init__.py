"""Traces that are written wide, the narrow traces that they become by the text of docs/FORMATS.md, and what the command must say of
them."""
