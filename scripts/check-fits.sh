#!/bin/sh
# Has tools of others check the FITS files that tests print: checks/check_fits.py.
exec "$(dirname "$0")/run_checks.py" fits
