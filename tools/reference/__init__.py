"""A second, plain computation of what the program answers, from its formats alone."""
