"""What the tools of deltat share: the formulas of its parameters, its scripts and its logs."""
