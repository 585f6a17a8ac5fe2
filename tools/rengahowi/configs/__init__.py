"""Configurations of routers: a reader and a writer a vendor, over what all of them have in common."""
