"""Tests of the front over real images, by the engine that is at hand."""
