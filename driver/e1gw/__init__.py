"""The Python programs around e1gw: what keeps, watches and carries a trunk, and the other tools."""

VERSION = '0.1.0'           # of this package
