"""What tools/packages says of Debian's packages: which are here, and which a case can't do without."""

import glob
import importlib.util
import pathlib
import shutil

PACKAGES = pathlib.Path(__file__).resolve().parent.parent / 'tools/packages'


def seen() -> dict[str, tuple[str, str]]:
    """How it is seen of each package that it is here: `command`, `module` or `file`, and its name or pattern."""
    lines = [line.split('\t') for line in PACKAGES.read_text().splitlines() if not line.startswith('#')]
    return {package: (how.split(' ', 1)[0], how.split(' ', 1)[1]) for _, package, how, _ in lines}


def is_here(package: str) -> bool:
    """Whether a package is here. One that tools/packages doesn't name is a KeyError: nobody would install it."""
    how, what = seen()[package]
    if how == 'command':
        return shutil.which(what) is not None
    if how == 'module':
        try:
            return importlib.util.find_spec(what) is not None
        except ModuleNotFoundError:
            return False
    return bool(glob.glob(what))


def lacking(*packages: str) -> str | None:
    """Which of these packages aren't here, as a sentence that a skipped case says, or None if all are."""
    missing = [package for package in packages if not is_here(package)]
    return f'{" and ".join(missing)} {"isn" if len(missing) == 1 else "aren"}\'t installed' if missing else None
