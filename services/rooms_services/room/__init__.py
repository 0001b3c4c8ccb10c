"""How a room is asked, and who is answered when."""
