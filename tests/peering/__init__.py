"""Comparing the programs with MAME: its processor, its disassembler, its ports and its console."""
