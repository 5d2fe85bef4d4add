"""One state that the packets of its connection follow."""
