"""Users and groups: who joins, leaves, is given something, and what the page offers of them."""
