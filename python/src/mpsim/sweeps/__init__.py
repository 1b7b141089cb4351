"""Sweeps: their results, and plans of any size, cut into shards for several machines."""
