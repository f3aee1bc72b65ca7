"""Tools for who changes the kernel."""
