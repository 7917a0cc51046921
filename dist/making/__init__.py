"""How the generated assembly is made and checked. Its command is dist/make_dist."""
