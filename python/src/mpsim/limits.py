"""The limits of models, traces and sweeps, which docs/MODEL.md lists."""

# The most records of a trace; the greatest time (int, ticks), and the greatest value of another column.
RECORDS, GREATEST_TIME, GREATEST_VALUE = 1 << 20, 1 << 60, 1 << 36
# The most bytes of a trace.
TRACE_BYTES = 1 << 27
# Later than any time of a trace: the end of an interval that never ends.
FOREVER = 1 << 62
# The most nodes of a model, sources among them, inputs of a node, servers of a trunk group, and outputs of a split.
NODES, SOURCES, INPUTS, TRUNK, OUTPUTS = 64, 63, 8, 255, 8
# The most stages of a tandem, and places of each after the first; the most places of a loss station.
STAGES, PLACES, LOSS = 4, 4, 1 << 20
# The most columns of the trace that a model names.
COLUMNS = 16
# The most models that one call of mpsweep takes.
MODELS = 64
