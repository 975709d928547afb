"""Draws the pictures of docs/images from checks that are run for them."""
