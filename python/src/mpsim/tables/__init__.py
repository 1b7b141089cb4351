"""Tables made from reports, sweeps and groups of agents, and the forms in which they are written."""
