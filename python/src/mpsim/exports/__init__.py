"""Traces from exports: tables of any form are read, their columns understood, and their rows turned into records."""
