"""The parts of tools/peers."""
