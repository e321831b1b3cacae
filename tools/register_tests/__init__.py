"""The tests of tools/register, a file for each idea; tools/test-register runs them."""
