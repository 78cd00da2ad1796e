"""Makes a map of all addresses, one HTML page, of what `yarib table --best` or `yarib diff` prints."""
