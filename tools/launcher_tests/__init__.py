"""The cases of tools/launcher-check."""
