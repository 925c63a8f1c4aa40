"""Tests of the routines of a GPL source: lines of tests, their cases, and what each case shows."""
