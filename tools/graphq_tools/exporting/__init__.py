"""graphq-export: writes a graph that graphq loads in the form of another system."""
