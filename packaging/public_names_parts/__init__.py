"""The parts of packaging/public_names."""
