"""Packages of others that tests use where they are there. One that is not is None."""

from __future__ import annotations

__all__ = ["networkx", "numpy", "sparse"]

try:
    import networkx
except ImportError:
    networkx = None

try:
    import numpy
except ImportError:
    numpy = None

try:
    from scipy import sparse
except ImportError:
    sparse = None
