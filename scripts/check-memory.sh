#!/bin/sh
# Refuses memory to two proved programs: checks/check_memory.py.
exec "$(dirname "$0")/run_checks.py" memory
