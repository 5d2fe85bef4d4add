"""Real traffic through a gateway of network namespaces, captured on both of its interfaces and replayed."""
