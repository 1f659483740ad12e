"""Parts of the tools for plans and certificates: plan-as, judge-plan, prepare-pddl and others."""
