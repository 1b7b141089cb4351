"""Data frames, arrays and columns as traces: their values, with dates and lengths of time turned into ticks."""
