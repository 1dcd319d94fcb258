"""The command line: subcommands, output, exit statuses, completion."""
