"""The parts of tools/conform."""
