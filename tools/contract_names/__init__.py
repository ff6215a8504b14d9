"""What contracts name: read from the texts of the repository, with no prover."""
