"""The page of `drillolive view`: what it shows of a mesh, and its own sources."""
