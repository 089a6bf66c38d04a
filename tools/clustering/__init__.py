"""What tools/cluster is made of: the programs as processes, a bad network between them, what is watched, and what is broken on purpose."""
import os
import sys

sys.path.insert(0, f"{os.path.dirname(os.path.dirname(os.path.realpath(__file__)))}/operate")  # where `auditing` is
