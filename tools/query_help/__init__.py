"""What ./explain knows of the query language: reads a query, finds what a fault is about, and puts it into words."""
