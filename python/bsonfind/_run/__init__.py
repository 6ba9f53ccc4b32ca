"""What starts programs and moves bytes."""
