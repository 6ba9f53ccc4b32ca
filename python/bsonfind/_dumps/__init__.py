"""The bytes of dumps: their files, what packs them, their check and their text."""
