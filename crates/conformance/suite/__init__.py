"""The worked scenarios as Python sees them: what `run-on`, `against`, `mutants` and the peers share."""
import os
import sys

# The model, and the reader of traces that all share, stand there.
sys.path.append(os.path.join(os.path.dirname(os.path.dirname(os.path.abspath(__file__))), "mutants"))
