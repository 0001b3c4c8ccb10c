"""One room: its settings, its server, and how much it has in use."""
