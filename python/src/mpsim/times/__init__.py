"""Times of the clock and the calendar: texts, formats, lengths, zones, and the days and intervals that ticks belong to."""
