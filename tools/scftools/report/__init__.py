"""What is shown of filters and profiles. It uses base, model, ask, cli and forms."""
