"""Tables of cases for the program of cases, by subject. Each file has a function `ask` that asks its tables."""
