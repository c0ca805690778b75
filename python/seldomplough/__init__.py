"""The companion of the Seldomplough receiver: from recordings to answers, from lines to numbers."""

__version__ = '1.0.0'
