"""What makes pages and drawings: packaging/contracts is made of it."""
