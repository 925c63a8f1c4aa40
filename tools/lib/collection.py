"""Work that makes many objects which stay."""
import contextlib
import gc


@contextlib.contextmanager
def without_collection():
    """Work in which Python does not look for objects that nothing holds any more: it would go through those that stay
    again and again."""
    was_on = gc.isenabled()
    gc.disable()
    try:
        yield
    finally:
        if was_on:
            gc.enable()
