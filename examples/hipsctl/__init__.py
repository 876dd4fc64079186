"""hipsctl: what whoever edits or runs a survey of hipsd does beside the server."""
