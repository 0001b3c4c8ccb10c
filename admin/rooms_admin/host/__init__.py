"""The machine: files, locks, processes. Nothing here knows a room."""
