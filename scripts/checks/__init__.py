"""The checks of the built program, each a module of unittest; scripts/run_checks.py runs them."""
