"""What is answered of whole folders, and what is replaced only if it is what was seen."""
