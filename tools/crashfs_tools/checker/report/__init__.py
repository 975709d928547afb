"""The report: as text, JUnit XML and HTML."""
