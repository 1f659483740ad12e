"""The parts of `tools/picture`: readers of the formats, a canvas, a module for each picture."""
