"""Brings a compiled ring queue into the language of `tsoq`: docs/ADOPT.md states each rule."""
