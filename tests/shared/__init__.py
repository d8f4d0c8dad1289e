"""What the outside tests of the library share."""
