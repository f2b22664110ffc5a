"""The checks of the merge gate. `.ci/NAME` starts the command NAME of this package."""
