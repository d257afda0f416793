"""The scenes of the suite, a module for each subject."""
