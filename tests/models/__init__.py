"""Models: small, slow programs that share nothing with those that are tested but their rules, and the random lines that both get."""
