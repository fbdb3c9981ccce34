"""graphq-shell: a prompt for graphq, with history, completion, tables, hints and times."""
