"""A seat for a person: an agent whose decisions come from a browser."""
