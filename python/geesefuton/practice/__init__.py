"""The practice room: games one after the other, and their standings."""
