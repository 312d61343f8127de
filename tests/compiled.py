"""What Python compiles for a test, kept while the test runs."""

import contextlib
import os
import tempfile


@contextlib.contextmanager
def kept():
    """Lets each interpreter that is started meanwhile find what those before it compiled. Nothing of it stays, and none is written beside the
    sources."""
    with tempfile.TemporaryDirectory(prefix='ezmlm-compiled.') as place:
        os.environ.update(PYTHONPYCACHEPREFIX=place, PYTHONDONTWRITEBYTECODE='')
        yield
