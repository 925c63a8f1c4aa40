"""Pictures as patterns and colours of characters."""
