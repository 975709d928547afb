"""Pages that are made from the sources: see tools/inventories."""
