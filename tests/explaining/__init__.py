"""Rows of what `desk explain` tells."""
