"""The version of the program and of this tool: the file VERSION of the repository."""

import pathlib

HERE = pathlib.Path(__file__).resolve().parent


def version() -> str:
    """The text of VERSION: installed it is in the package's folder, else at the repository's top."""
    for place in (HERE / "VERSION", HERE.parent.parent / "VERSION"):
        if place.is_file():
            return place.read_text(encoding="ascii").strip()
    return "unknown"
