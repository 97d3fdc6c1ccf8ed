"""The parts of tools/try."""
