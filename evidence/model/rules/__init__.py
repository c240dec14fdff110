"""The rules of `symq`, read literally: a model that was written apart from the program that is proved."""
