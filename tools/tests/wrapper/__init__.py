"""Cases of tools/test-wrapper, by topic."""
