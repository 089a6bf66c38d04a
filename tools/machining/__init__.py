"""Machines of a set as network namespaces, with the service's programs on them, for tools/machines."""
