"""Checks of the bridge from kubectl: what is read of a state, what becomes of policies, which rows come, which slips."""
