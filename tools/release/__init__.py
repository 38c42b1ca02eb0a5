"""What `tools/package` is made of: the table of commands, manuals, completions, the archive and the Debian package."""
