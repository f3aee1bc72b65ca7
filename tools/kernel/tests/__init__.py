"""Test cases of these tools, by topic; tools/test-tools runs them."""
