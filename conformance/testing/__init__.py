"""What conformance/runner.py is made of: scenes, verdicts, runs and reports."""
