"""Traces, reports and sweeps for `flashplay`. None of it is proved."""
