"""What tests, examples and measurements share. The Debian package leaves it out."""
