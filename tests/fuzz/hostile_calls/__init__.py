"""The hostile calls that tests/fuzz/hostile makes, and how their answers are compared."""
