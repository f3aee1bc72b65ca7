"""The cases of tools/test-tools, by topic."""
