"""What tools/make-region is made of: feeds and maps as they are published are made ready for the planner."""
