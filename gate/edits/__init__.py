"""The runner of must-fail edits, their record, and by which goals they were refused."""
