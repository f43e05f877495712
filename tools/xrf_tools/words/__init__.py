"""The words of the launcher that are tools, a module each."""
