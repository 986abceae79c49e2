"""Majority-inverter graphs of serial blocks, and netlists of other tools."""
