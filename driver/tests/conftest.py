"""What comes before these tests, and before each of them."""
import gc


def pytest_collection_finish() -> None:
    """What all modules hold is not looked over again."""
    gc.freeze()


def pytest_runtest_setup() -> None:
    """What the test before has left says nothing within this one."""
    gc.collect()
