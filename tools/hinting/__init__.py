"""Where the fault of a run is, in words."""
