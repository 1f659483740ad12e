"""The reader of PDDL of all tools: its forms, the tasks that prepare-pddl takes, and STRIPS."""
