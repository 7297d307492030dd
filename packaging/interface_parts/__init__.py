"""What packaging/interface is made of: it reads the interface of C where the crates and the header say it, compares them, and writes
what others say of it."""
