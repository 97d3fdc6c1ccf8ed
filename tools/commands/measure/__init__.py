"""The parts of tools/measure."""
