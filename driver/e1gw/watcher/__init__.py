"""Shows a trunk: what reads the log and the reports of its program, serves an operator, and feeds a standby."""
