"""A plain slow scheduler and workbench, written from docs/model.md and docs/formats.md alone."""
