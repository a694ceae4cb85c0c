"""What run.py shows: lists written in words, the engines that run them, answers, states, and the two runs of demand 3."""
