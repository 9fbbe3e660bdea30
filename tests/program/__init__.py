"""Tests of a built program, each with a folder of its own: its octets, its messages, its statuses, its files."""
