"""What stations of a line do that no node of a model does: buffers of any size between machines, breakdowns, and batches.

Each module works something out beside the proved programs and writes it into a model and the columns of a trace, which the programs then run. What
the modules work out is tested, not proved.
"""
