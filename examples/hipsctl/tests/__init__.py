"""Tests of hipsctl: HIPSD_PROGRAM=PROGRAM /usr/bin/python3 -m unittest discover -t examples examples/hipsctl/tests"""
