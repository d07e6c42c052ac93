"""Sinks of mrep's change feed: the rows as tables of SQLite or PostgreSQL, or the changes in Kafka, each transaction once."""
