"""The tests of the driver: pytest driver/tests, from the top (scripts/test)."""
import logging

logging.getLogger('asyncio').setLevel(logging.ERROR)        # (a slow turn of a loop is no fault)
