"""What `bin/tarzubei` does around the proved program: help, building, installing, quick runs, explanations."""
