"""Tools for those who change the program: they read the crates as text, and make or check what is told of them."""
