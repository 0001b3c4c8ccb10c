"""Copies of a room: each night's, each hour's, another machine's; and one put back."""
