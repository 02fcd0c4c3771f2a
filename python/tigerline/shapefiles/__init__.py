"""The Census Bureau's shapefiles, published since 2007, as TIGER/Line 2006 files, which `extractd` reads."""
