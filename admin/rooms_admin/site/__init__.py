"""nginx's site and Apache's, made of all settings; rooms of it, and its certificates."""
