"""Documents whose texts contain words, as far as the caller may list and read them."""
