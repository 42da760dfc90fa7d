"""The command `drillolive`: refines meshes in files, and looks for their faults."""
