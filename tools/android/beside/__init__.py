"""The program beside Android's own tools, a module a part of `tools/android/compare`. `base.py` says what a part is."""
