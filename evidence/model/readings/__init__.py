"""The definitions read literally, without optimization and at any cost, with which the model itself is compared."""
