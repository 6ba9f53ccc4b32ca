"""The commands over whole backups."""
