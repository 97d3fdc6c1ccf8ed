"""The parts of tools/gen."""
