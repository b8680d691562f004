"""What users hand over, in whatever form, as the program takes it. It uses base, model, ask and cli."""
