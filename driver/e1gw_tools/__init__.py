"""Commands for configurations, records and captures, and an exchange to try a trunk with."""
