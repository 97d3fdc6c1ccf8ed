"""What `tools/gen api` and `tools/gen coverage` read of the sources, and the pages that `tools/gen api` writes."""
