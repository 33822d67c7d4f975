"""One page (HTML) of what two captures, or a trace, say of a queue: `python -m marple.report`, or `marple-report`.

The numbers are those of the cookbook's queries, which the program answers; what is computed from their rows here, as a
percentile or a share, is said on the page.
"""
