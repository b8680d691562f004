"""The command line of a tool: options, standard input and the commands. It uses base, model and ask."""
