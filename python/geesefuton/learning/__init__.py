"""Games in steps, without a clock, for programs that learn."""
