"""For how long files that gave way are kept."""

KEEP_DAYS = 14
MOST_DAYS = 36500
DAY_SECONDS = 86400
