"""Help for an engineer at the bench: a legend of a program, waves of a table, drawings of automata, and a frame for a controller."""
