"""Stands for the package in python/, so that the scripts of this folder import it in a clone."""

import importlib
import sys
from pathlib import Path

del sys.modules[__name__]
sys.path.insert(0, str(Path(__file__).resolve().parent.parent / "python"))
importlib.import_module(__name__)
