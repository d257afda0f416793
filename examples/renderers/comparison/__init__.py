"""What compare.py does: scenes, trials, the causes of differences, the page and the tables."""
