"""What a machine has beside its rooms: kept in machine.tar, and brought back."""
