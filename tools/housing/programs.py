"""The programs of a trial of houses, and what is compiled for them."""

from __future__ import annotations

import os

from cds import programs


class Programs:
    """The house that is tried, the program that replays, the one that explains, if it is tried, too, and the disk
    between the house and its folder."""

    def __init__(self, house: str | None = None, plain: str | None = None, explainer: str | None = None) -> None:
        self.house = programs.plain_house(house)
        self.explainer = explainer and os.path.abspath(explainer)
        self.plain = programs.plain(plain)
        self.disk = programs.compiled("tools/housing/disk.rs", "out/house-disk.so", "--crate-type", "cdylib")
