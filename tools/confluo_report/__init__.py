"""Reports of confluo for people and for other programs; see confluo-report(1)."""
