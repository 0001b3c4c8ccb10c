"""Texts of a room's documents, as the last night found them."""
