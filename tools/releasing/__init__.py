"""Makes what a user downloads: see tools/release."""
